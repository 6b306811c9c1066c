//! How many jobs are marked and how many of them are left, counted by hand.

use crate::joblist::lists;
use crate::marks::Tally;

type Quad = (u32, u32, u32, u32);

fn line(all: &[&[Quad]]) -> String {
    let mut tally = Tally::default();
    for jobs in all {
        let (times, supply) = lists(1, jobs);
        tally.add(&times, &supply);
    }
    tally.line(3)
}

#[test]
fn jobs_without_which_there_is_still_a_clash_are_taken_out() {
    let settled = [(0, 2, 2, 1), (2, 4, 2, 1), (4, 6, 2, 1)];
    let all_needed = [(3, 4, 1, 1), (0, 5, 3, 1), (0, 2, 2, 1)];
    let first_spare = [(0, 2, 1, 1), (0, 2, 2, 1), (0, 1, 1, 1)];
    let too_short = [(0, 9, 1, 1), (3, 4, 2, 1), (3, 4, 2, 1)];
    let none = "3 jobs: 0 clashes, marked 0.00 on average, left 0.00, fewer in 0";
    assert_eq!(line(&[&settled]), none);
    let needed = "3 jobs: 1 clashes, marked 3.00 on average, left 3.00, fewer in 0";
    assert_eq!(line(&[&all_needed]), needed);
    let spare = "3 jobs: 1 clashes, marked 3.00 on average, left 2.00, fewer in 1";
    assert_eq!(line(&[&first_spare]), spare);
    let short = "3 jobs: 1 clashes, marked 1.00 on average, left 1.00, fewer in 0";
    assert_eq!(line(&[&too_short]), short);
    let all = "3 jobs: 4 clashes, marked 2.50 on average, left 2.00, fewer in 2";
    let asked = line(&[
        &first_spare,
        &all_needed,
        &settled,
        &first_spare,
        &too_short,
    ]);
    assert_eq!(asked, all);
}
