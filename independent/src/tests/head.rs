//! The read head's refusals, and windows that are too short for it.

use super::head_rows::{assert_clash, assert_stays};
use super::overload::times_of;
use crate::answers::Answer;
use crate::head::head;
use crate::joblist::{Times, MOST_JOBS, MOST_TIME};

fn assert_refused(number: u32, times: &Times) {
    let mut after = times.clone();
    assert_eq!(head(&mut after), Answer::Refused(number));
    assert_eq!(&after, times);
}

#[test]
fn refusals_come_in_order_and_before_short_windows() {
    let many = times_of(&[(3, 6, u32::MAX); MOST_JOBS + 1]);
    assert_refused(2, &many);
    for list in 0..3 {
        for length in [0, MOST_JOBS, MOST_JOBS + 2] {
            let mut uneven = many.clone();
            let lists = [&mut uneven.est, &mut uneven.lct, &mut uneven.dur];
            lists[list].resize(length, 9);
            assert_refused(1, &uneven);
        }
    }
    for great in [MOST_TIME + 1, u32::MAX] {
        for job in [(great, 0, 0), (0, great, 0), (3, 6, great)] {
            assert_refused(3, &times_of(&[(3, 6, 4), job]));
        }
    }
}

#[test]
fn a_window_that_is_too_short_is_a_clash_without_a_move() {
    assert_clash(0, 0, &[(3, 6, 4)]);
    assert_clash(0, 0, &[(5, 4, 0)]);
    assert_clash(0, 0, &[(MOST_TIME, 0, MOST_TIME)]);
    assert_clash(0, 1, &[(0, 9, 1), (5, 5, 1), (2, 1, 0)]);
    assert_clash(0, 2, &[(0, 2, 2), (0, 2, 2), (1, 0, 0)]);
    assert_stays(&[(3, 7, 4), (0, 0, 0), (9, 9, 0)]);
}

#[test]
fn no_jobs_settle() {
    assert_stays(&[]);
}
