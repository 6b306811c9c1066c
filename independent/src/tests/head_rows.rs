//! Worked rows of the read head (02, Item 2), each with its arithmetic. Jobs are
//! written e, l, p; "1 first by 3 > 0" says that job 1 comes first, since e + p = 3
//! of the job looked at exceeds its l − p = 0; "after" likewise on side 1.

use super::overload::times_of;
use super::windows;
use crate::answers::Answer;
use crate::head::head;
use crate::joblist::{Supply, MOST_JOBS, MOST_TIME};
use crate::timetable::narrow;

type Triple = (u32, u32, u32);

pub fn assert_settled(moves: usize, jobs: &[Triple], left: &[(u32, u32)]) {
    let mut times = times_of(jobs);
    assert_eq!(head(&mut times), Answer::Settled(moves), "{jobs:?}");
    assert_eq!(windows(&times), left, "{jobs:?}");
}

pub fn assert_stays(jobs: &[Triple]) {
    let as_submitted: Vec<_> = jobs.iter().map(|&(e, l, _)| (e, l)).collect();
    assert_settled(0, jobs, &as_submitted);
}

pub fn assert_clash(moves: usize, closed: usize, jobs: &[Triple]) {
    let mut times = times_of(jobs);
    assert_eq!(head(&mut times), Answer::Clash(moves, closed), "{jobs:?}");
    assert_eq!(times, times_of(jobs));
}

/// Time-tabling with the same windows on a supply of one.
fn assert_no_crowd(jobs: &[Triple]) {
    let mut times = times_of(jobs);
    let answer = narrow(&mut times, &Supply::of_one(jobs.len()), &mut []);
    assert_eq!(answer, Answer::Settled(0), "{jobs:?}");
}

/// 0 first by 3 > 0, so 1 starts at 0 + 2; on side 1 of 0 the bound is 9 − 3 = 6.
#[test]
fn one_job_first() {
    assert_settled(1, &[(0, 2, 2), (0, 9, 3)], &[(0, 2), (2, 9)]);
}

/// 001, section 2.4.6, figure 2.6: A and B come before C, neither of them alone moves
/// a bound, and est_C becomes est_A + p_A + p_B = 10. The figure's other numbers are
/// not printed in the text; these are chosen so that its sentences hold. For C:
/// A first by 12 > 9, B by 12 > 10; {A} gives 5, {B} 6, {A, B} 10, above 8. For A and
/// B on side 1, C after by 12 > 9 and 12 > 10, gives 25 − 4 = 21.
#[test]
fn figure_2_6_of_document_001() {
    let [a, b, c] = [(0, 14, 5), (1, 15, 5), (8, 25, 4)];
    assert_settled(1, &[a, b, c], &[(0, 14), (1, 15), (10, 25)]);
    assert_stays(&[a, c]);
    assert_stays(&[b, c]);
    assert_stays(&[a, b]);
    assert_no_crowd(&[a, b, c]);
}

/// The row above with the clock turned about 25: l_C becomes 25 − 10.
#[test]
fn figure_2_6_turned() {
    let jobs = [(11, 25, 5), (10, 24, 5), (0, 17, 4)];
    assert_settled(1, &jobs, &[(11, 25), (10, 24), (0, 15)]);
    assert_no_crowd(&jobs);
}

/// 2 > 2 finds nothing. With 3 for the second 4: 1 first by 2 > 1, so e_0 = 2; then
/// 0 after 1 by 4 > 1, so l_1 = 4 − 2 = 2.
#[test]
fn e_plus_p_has_to_exceed_l_less_p() {
    assert_stays(&[(0, 4, 2), (0, 4, 2)]);
    assert_settled(2, &[(0, 4, 2), (0, 3, 2)], &[(2, 4), (0, 2)]);
}

/// All three tests are ties: 3 > 3, 2 > 2 and 2 > 3 are not so, while 6 units of
/// work have 5 units of time.
#[test]
fn there_is_no_overload_test() {
    assert_stays(&[(1, 4, 2), (0, 5, 2), (0, 5, 2)]);
}

/// Its own l − p = 1 lies below e + p = 2.
#[test]
fn a_job_does_not_come_before_itself() {
    assert_stays(&[(0, 3, 2)]);
    assert_stays(&[(0, 3, 2), (7, 9, 1)]);
}

/// 0 first by 12 > 1, 1 by 12 > 10; {0} gives 1, {1} 13, {0, 1} only 0 + 4.
#[test]
fn the_best_set_need_not_be_the_whole() {
    let jobs = [(0, 2, 1), (10, 13, 3), (10, 30, 2)];
    assert_settled(1, &jobs, &[(0, 2), (10, 13), (13, 30)]);
}

/// 0: 1 first by 3 > 1, 2 not by 3 > 4: e_0 = 2. Then 2 first by 5 > 4; {1} gives 2,
/// {2} 5, {1, 2} 0 + 4: e_0 = 5. Side 1 of 1: {2} gives 6 − 2 = 4, not below 3.
#[test]
fn a_side_is_moved_again_and_again() {
    let jobs = [(0, 20, 3), (0, 3, 2), (3, 6, 2)];
    assert_settled(2, &jobs, &[(5, 20), (0, 3), (3, 6)]);
}

/// 0: 1 first by 3 > 0, e_0 = 2; 2 after by 12 > 9, l_0 = 12 − 2 = 10.
#[test]
fn both_sides_of_a_job_move() {
    let jobs = [(0, 12, 3), (0, 2, 2), (10, 12, 2)];
    assert_settled(2, &jobs, &[(2, 10), (0, 2), (10, 12)]);
}

/// 0: both first by 7 > 5 and 7 > 2; {1} gives 3, {2} 4, {1, 2} 1 + 4: e_0 = 5. 1: 2 first
/// by 3 > 2, e_1 = 4. In the second round {1} and {1, 2} give 6: e_0 = 6.
#[test]
fn a_job_is_moved_again_in_a_second_round() {
    let jobs = [(3, 12, 4), (1, 7, 2), (2, 4, 2)];
    assert_settled(3, &jobs, &[(6, 12), (4, 7), (2, 4)]);
}

/// The same with l_0 = 9: after e_0 = 5 and e_1 = 4, 0 comes before 1 too, by 6 > 5;
/// {0} gives 5 + 4 = 9, and 9 + 2 > 7 closes the window of 1.
#[test]
fn a_third_move_closes() {
    assert_clash(3, 1, &[(3, 9, 4), (1, 7, 2), (2, 4, 2)]);
}

/// 0: 1 first by 2 > 1, e_0 = 3 and 5 > 2. Where one ends as the other starts, 2 > 2.
#[test]
fn fixed_jobs_that_overlap_and_that_do_not() {
    assert_clash(1, 0, &[(0, 2, 2), (1, 3, 2)]);
    assert_stays(&[(0, 2, 2), (2, 4, 2)]);
    assert_clash(1, 1, &[(9, 9, 0), (0, 9, 9), (8, 9, 1)]);
}

/// A job of duration 0 in the midst of another, and one that 2 would have to leave.
/// Without it 1: 2 first by 2 > 1, e_1 = 2 and 4 > 3.
#[test]
fn jobs_of_duration_0_are_apart() {
    assert_stays(&[(0, 4, 4), (2, 2, 0)]);
    assert_stays(&[(0, 0, 0), (0, 0, 0), (0, 1, 1)]);
    assert_stays(&[(0, 9, 0), (0, 4, 4), (4, 9, 5)]);
    assert_clash(1, 1, &[(1, 1, 0), (0, 3, 2), (0, 3, 2)]);
}

/// 0: none first, 1 > 2 is not so; all three after by 3 > 2; one of them gives
/// 4 − 2, two 0, three 4 − 6 = −2, which closes.
#[test]
fn a_latest_end_below_zero_closes() {
    assert_clash(1, 0, &[(0, 3, 1), (1, 4, 2), (1, 4, 2), (1, 4, 2)]);
    assert_clash(1, 0, &[(0, 3, 1), (1, 4, 2), (1, 4, 2)]);
}

/// Halves tie; one unit more is first on both sides, and half + (half + 1) is too long.
/// The last two bounds are the limit times all other jobs, and as much below zero less
/// the limit.
#[test]
fn times_at_their_limit() {
    let half = MOST_TIME / 2;
    assert_stays(&[(0, MOST_TIME, half), (0, MOST_TIME, half)]);
    assert_clash(1, 0, &[(0, MOST_TIME, half + 1), (0, MOST_TIME, half)]);
    let last = (MOST_TIME - 1, MOST_TIME, 1);
    let jobs = [(0, MOST_TIME, 1), last];
    assert_settled(1, &jobs, &[(0, MOST_TIME - 1), (MOST_TIME - 1, MOST_TIME)]);
    let mut many = [(0, MOST_TIME, MOST_TIME); MOST_JOBS];
    assert_clash(1, 0, &many);
    many[0] = (0, MOST_TIME, 0);
    assert_clash(1, 1, &many);
    many[0] = (0, 1, 1);
    assert_clash(1, 0, &many);
}

/// No sure parts, or none that is in the way. Two jobs: 1 first by 4 > 3, e_0 = 3.
/// With l_0 = 8 also 0 after 1 by 7 > 3, l_1 = 8 − 4. Three: 2 after 0 by 4 > 3,
/// l_0 = 9 − 4 = 5; then 1 after by 3 > 2, {1} gives 3, {2} 5, {1, 2} 9 − 7 = 2, and
/// 0 + 3 > 2.
#[test]
fn rows_where_time_tabling_finds_nothing() {
    assert_settled(1, &[(0, 20, 4), (1, 5, 2)], &[(3, 20), (1, 5)]);
    assert_no_crowd(&[(0, 20, 4), (1, 5, 2)]);
    assert_settled(2, &[(0, 8, 4), (1, 5, 2)], &[(3, 8), (1, 4)]);
    assert_no_crowd(&[(0, 8, 4), (1, 5, 2)]);
    assert_clash(2, 0, &[(0, 6, 3), (0, 6, 3), (0, 9, 4)]);
    assert_no_crowd(&[(0, 6, 3), (0, 6, 3), (0, 9, 4)]);
}

/// No sure part anywhere, and all is fixed in the end. 0: 1 after by 4 > 3, l_0 = 4; then
/// 2 too by 3 > 1, {1, 2} gives 9 − 6: l_0 = 3. 1: 0 first by 4 > 0, e_1 = 3. 2: 0 first
/// by 3 > 0, e_2 = 3; then 1 by 5 > 4, {1} gives 7: e_2 = 7. In the second round
/// 2 after 1 by 9 > 4: l_1 = 7.
#[test]
fn a_row_without_sure_parts_is_fixed_throughout() {
    let jobs = [(0, 6, 3), (0, 8, 4), (1, 9, 2)];
    assert_settled(6, &jobs, &[(0, 3), (3, 7), (7, 9)]);
    assert_no_crowd(&jobs);
}
