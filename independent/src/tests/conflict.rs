//! The marks of clash logs worked by hand (02, Item 14).

use crate::answers::Answer;
use crate::conflict::conflict;
use crate::joblist::{lists, Supply, Times};
use crate::record::{Members, Record, RECORD_WORDS};
use crate::timetable::{record, Side};

type Quad = (u32, u32, u32, u32);

/// The words of the record that moves the start of job j at time t.
pub fn start(j: usize, t: i64, members: &[usize]) -> [u32; RECORD_WORDS] {
    moving(j, Side::Start, t, members).words()
}

fn moving(j: usize, side: Side, t: i64, members: &[usize]) -> Record {
    let mut set = Members::default();
    members.iter().for_each(|&k| set.put(k));
    record(j, side, t, set)
}

/// Just these jobs are marked.
pub fn assert_marked(
    marked: &[usize],
    (times, supply): &(Times, Supply),
    records: &[[u32; RECORD_WORDS]],
) {
    let (answer, set) = conflict(times, supply, records.len() as u64, &records.concat());
    assert_eq!(answer, Answer::Marked(marked.len() as u32));
    assert_eq!(set.numbers(), marked);
}

/// So many jobs that draw nothing, and these among them.
fn among(jobs: usize, cap: u32, those: &[(usize, Quad)]) -> (Times, Supply) {
    let mut all = vec![(0, 1, 0, 0); jobs];
    those.iter().for_each(|&(k, job)| all[k] = job);
    lists(cap, &all)
}

/// Job 1 has to start behind job 2, and then takes the only time of job 0.
pub const BEHIND: [Quad; 3] = [(3, 4, 1, 1), (0, 5, 3, 1), (0, 2, 2, 1)];

#[test]
fn the_closing_record_marks_its_job_and_members() {
    assert_marked(&[0, 1], &lists(1, &[(0, 2, 2, 1); 2]), &[start(0, 1, &[1])]);
    assert_marked(&[0], &lists(1, &[(0, 1, 1, 2)]), &[start(0, 0, &[])]);
    let of_six = lists(3, &[(4, 5, 1, 1); 6]);
    assert_marked(&[1, 2, 3, 5], &of_six, &[start(3, 4, &[1, 2, 5])]);
    let at_its_end = moving(1, Side::End, 1, &[0]).words();
    assert_marked(&[0, 1], &lists(1, &[(0, 2, 2, 1); 2]), &[at_its_end]);
}

#[test]
fn an_earlier_record_marks_its_members_if_its_job_is_marked() {
    let of = lists(1, &BEHIND);
    assert_marked(&[0, 1, 2], &of, &[start(1, 1, &[2]), start(0, 3, &[1])]);
    assert_marked(
        &[0, 1, 2],
        &of,
        &[start(1, 0, &[2]), start(1, 1, &[2]), start(1, 3, &[0])],
    );
}

#[test]
fn marks_are_carried_from_record_to_record() {
    let jobs = [(6, 7, 1, 1), (3, 8, 3, 1), (1, 6, 3, 1), (0, 2, 2, 1)];
    let log = [start(2, 1, &[3]), start(1, 4, &[2]), start(0, 6, &[1])];
    assert_marked(&[0, 1, 2, 3], &lists(1, &jobs), &log);
}

/// Job 4 leaves jobs 2 and 3, of which only job 2 is why there is no schedule.
#[test]
fn a_record_whose_moved_job_is_not_marked_marks_nothing() {
    let jobs = [
        (3, 4, 1, 1),
        (0, 5, 3, 2),
        (0, 2, 2, 1),
        (0, 2, 2, 1),
        (0, 9, 1, 1),
    ];
    let of = lists(2, &jobs);
    let needed = [start(1, 1, &[2]), start(0, 3, &[1])];
    let aside = start(4, 0, &[2, 3]);
    assert_marked(&[0, 1, 2], &of, &needed);
    assert_marked(&[0, 1, 2], &of, &[aside, needed[0], needed[1]]);
    assert_marked(&[0, 1, 2], &of, &[needed[0], aside, needed[1]]);
    let other = [start(1, 1, &[3]), start(0, 3, &[1])];
    assert_marked(&[0, 1, 3], &of, &[aside, other[0], other[1]]);
}

/// Job 2 is marked as it was when it moved job 1; that job 3 moves it later has
/// no part in the clash.
#[test]
fn a_record_marks_nothing_for_a_job_that_an_earlier_one_marks() {
    let jobs = [(3, 4, 1, 1), (0, 5, 3, 1), (0, 3, 2, 1), (0, 1, 1, 1)];
    let of = lists(1, &jobs);
    let (moved, later, closing) = (start(1, 1, &[2]), start(2, 0, &[3]), start(0, 3, &[1]));
    assert_marked(&[0, 1, 2], &of, &[moved, later, closing]);
    assert_marked(&[0, 1, 2, 3], &of, &[later, moved, closing]);
}

#[test]
fn each_side_of_a_marked_job_counts() {
    let jobs = [(2, 5, 1, 1), (0, 2, 2, 1), (5, 7, 2, 1), (1, 6, 3, 1)];
    let end = |j, t, members: &[usize]| moving(j, Side::End, t, members).words();
    let log = [
        start(3, 1, &[1]),
        end(3, 5, &[2]),
        start(0, 2, &[3]),
        start(0, 3, &[3]),
        start(0, 4, &[3]),
    ];
    assert_marked(&[0, 1, 2, 3], &lists(1, &jobs), &log);
}

#[test]
fn a_clash_without_a_record_marks_the_named_job_alone() {
    let short = (3, 6, 4, 1);
    let nothing = &[][..];
    assert_marked(&[0], &lists(1, &[short]), nothing);
    assert_marked(&[1], &lists(1, &[(0, 9, 1, 1), short, short]), nothing);
    assert_marked(
        &[2],
        &lists(0, &[(0, 2, 2, 1), (0, 2, 2, 1), (1, 0, 0, 0)]),
        nothing,
    );
    for k in [0, 31, 32, 63, 64, 255] {
        assert_marked(&[k], &among(256, 1, &[(k, short)]), nothing);
    }
    let (times, supply) = lists(1, &[(0, 9, 1, 1), short]);
    for log in [vec![7; RECORD_WORDS], vec![u32::MAX; 3 * RECORD_WORDS]] {
        let (answer, set) = conflict(&times, &supply, 0, &log);
        assert_eq!((answer, set.numbers()), (Answer::Marked(1), vec![1]));
    }
}

#[test]
fn jobs_are_marked_in_every_word() {
    let [a, b, c] = BEHIND;
    for [j, k, m] in [
        [31, 32, 63],
        [32, 31, 255],
        [63, 255, 0],
        [255, 0, 31],
        [0, 64, 255],
        [223, 224, 192],
    ] {
        let of = among(256, 1, &[(j, a), (k, b), (m, c)]);
        let mut marked = [j, k, m];
        marked.sort_unstable();
        assert_marked(&marked, &of, &[start(k, 1, &[m]), start(j, 3, &[k])]);
    }
}

#[test]
fn all_jobs_can_be_marked() {
    for jobs in [2, 31, 32, 33, 63, 64, 65, 255, 256] {
        let of = lists(jobs as u32 - 1, &vec![(0, 1, 1, 1); jobs]);
        let others: Vec<usize> = (1..jobs).collect();
        let all: Vec<usize> = (0..jobs).collect();
        assert_marked(&all, &of, &[start(0, 0, &others)]);
    }
}

#[test]
fn words_behind_the_claimed_records_are_not_looked_at() {
    let (times, supply) = lists(1, &BEHIND);
    let records = [
        start(1, 1, &[2]),
        start(0, 3, &[1]),
        [u32::MAX; RECORD_WORDS],
    ];
    let (answer, set) = conflict(&times, &supply, 2, &records.concat());
    assert_eq!((answer, set.numbers()), (Answer::Marked(3), vec![0, 1, 2]));
}
