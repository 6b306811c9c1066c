//! The overload check: ties, refusals, and all sets against the pair.

use crate::answers::Answer;
use crate::joblist::{good_jobs, lists, lowest_too_short, Job, Supply, Times};
use crate::overload::{overload, pair, some_set_is_overloaded};
use crate::random::Random;

pub fn times_of(jobs: &[(u32, u32, u32)]) -> Times {
    let quads: Vec<_> = jobs.iter().map(|&(e, l, p)| (e, l, p, 1)).collect();
    lists(1, &quads).0
}

fn jobs_of(times: &Times) -> Vec<Job> {
    good_jobs(times, &Supply::of_one(times.est.len())).unwrap()
}

/// Both are those of a non-empty set, and it is overloaded (02, Item 3).
fn assert_of_a_set(jobs: &[Job], a: i64, b: i64) {
    let lies_within = |job: &&Job| job.e >= a && job.l <= b;
    let set: Vec<&Job> = jobs.iter().filter(lies_within).collect();
    assert_eq!(set.iter().map(|job| job.e).min(), Some(a));
    assert_eq!(set.iter().map(|job| job.l).max(), Some(b));
    assert!(a + set.iter().map(|job| job.p).sum::<i64>() > b);
}

pub fn assert_overload(a: i64, b: i64, jobs: &[(u32, u32, u32)]) {
    let times = times_of(jobs);
    assert_eq!(overload(&times), Answer::Overload(a, b));
    assert_of_a_set(&jobs_of(&times), a, b);
}

#[test]
fn all_jobs_of_a_tie_count() {
    assert_overload(1, 2, &[(1, 2, 1), (0, 2, 2), (1, 2, 1)]);
}

#[test]
fn the_least_end_comes_before_the_greatest_start() {
    let late = [(8, 9, 1), (8, 9, 1)];
    let early = [(0, 3, 2), (1, 3, 2)];
    assert_overload(0, 3, &[late, early].concat());
}

#[test]
fn no_jobs_and_jobs_that_last_nothing_are_no_overload() {
    assert_eq!(overload(&Times::default()), Answer::None);
    assert_eq!(overload(&times_of(&[(5, 5, 0); 40])), Answer::None);
}

#[test]
fn refusals_come_in_order() {
    let (many, _) = lists(1, &[(0, u32::MAX, 1, 1); 257]);
    let mut uneven = many.clone();
    uneven.dur.pop();
    assert_eq!(overload(&uneven), Answer::Refused(1));
    assert_eq!(overload(&many), Answer::Refused(2));
    let great = times_of(&[(5, 5, 1), (0, 1_000_001, 1)]);
    assert_eq!(overload(&great), Answer::Refused(3));
}

#[test]
fn all_sets_agree_with_the_pair() {
    let mut random = Random::new(7);
    let (mut overloaded, mut a_above_b) = (0, 0);
    for round in 0..1_500 {
        let jobs = if round % 50 == 0 {
            12
        } else {
            random.between(0, 7)
        };
        let short = random.pick(&[vec![0], vec![0, 0, 0, 3, 6]]);
        let mut times = Times::default();
        for _ in 0..jobs {
            let e = random.between(0, 8);
            let p = random.between(0, 3);
            let l = e + p + random.between(0, 4);
            times.push(e, l.saturating_sub(random.pick(&short)), p);
        }
        let jobs = jobs_of(&times);
        let found = pair(&jobs);
        assert_eq!(found.is_some(), some_set_is_overloaded(&jobs));
        if let Some((a, b)) = found {
            assert_of_a_set(&jobs, a, b);
            assert!(a < b || lowest_too_short(&jobs).is_some());
            overloaded += 1;
            a_above_b += usize::from(a > b);
        }
    }
    assert!(overloaded > 200 && overloaded < 1_300);
    assert!(a_above_b > 100);
}
