//! The tester's demands of the read head on small lists, by brute force over
//! schedules and windows (02, Item 2).

use super::demands::{choices, inner_windows, lies_inside};
use crate::answers::Answer;
use crate::head::head;
use crate::joblist::Times;
use crate::random::Random;

pub fn run(times: &Times) -> (Answer, Times) {
    let mut narrowed = times.clone();
    let answer = head(&mut narrowed);
    (answer, narrowed)
}

/// Up to so many jobs with windows up to so much longer than they are.
fn small(random: &mut Random, most: u32, slack: u32) -> Times {
    let mut times = Times::default();
    for _ in 0..random.between(1, most) {
        let e = random.between(0, 5);
        let p = random.pick(&[0, 1, 1, 2, 2, 3, 4]);
        let l = e + p + random.between(0, slack);
        times.push(e, l.saturating_sub(u32::from(random.one_in(40))), p);
    }
    times
}

/// No two jobs of positive duration overlap.
fn is_schedule(starts: &[u32], dur: &[u32]) -> bool {
    let lasting: Vec<usize> = (0..dur.len()).filter(|&k| dur[k] >= 1).collect();
    let apart =
        |i: usize, j: usize| starts[i] + dur[i] <= starts[j] || starts[j] + dur[j] <= starts[i];
    lasting
        .iter()
        .all(|&i| lasting.iter().all(|&j| i == j || apart(i, j)))
}

/// A rule of either side applies, by the sentence: all sets of other jobs are tried,
/// and those that hold a job which does not come first (or after) left out.
fn some_rule_applies(times: &Times) -> bool {
    let number = |list: &[u32], k: usize| i64::from(list[k]);
    let e = |k: usize| number(&times.est, k);
    let l = |k: usize| number(&times.lct, k);
    let p = |k: usize| number(&times.dur, k);
    let jobs = times.est.len();
    (0..jobs).filter(|&i| p(i) >= 1).any(|i| {
        (1..1usize << jobs).any(|choice| {
            let set: Vec<usize> = (0..jobs).filter(|k| (choice >> k) & 1 == 1).collect();
            let total: i64 = set.iter().map(|&j| p(j)).sum();
            let least_e = set.iter().map(|&j| e(j)).min().unwrap();
            let greatest_l = set.iter().map(|&j| l(j)).max().unwrap();
            let other = |j: usize| j != i && p(j) >= 1;
            let first = |&j: &usize| other(j) && e(i) + p(i) > l(j) - p(j);
            let after = |&j: &usize| other(j) && e(j) + p(j) > l(i) - p(i);
            set.iter().all(first) && least_e + total > e(i)
                || set.iter().all(after) && greatest_l - total < l(i)
        })
    })
}

#[test]
fn no_schedule_is_lost_and_a_clash_means_none() {
    let mut random = Random::new(21);
    let (mut moved, mut clashes) = (0, 0);
    for _ in 0..3_000 {
        let times = small(&mut random, 4, 5);
        let (answer, narrowed) = run(&times);
        let all = choices(&times).into_iter();
        let schedules: Vec<_> = all
            .filter(|starts| is_schedule(starts, &times.dur))
            .collect();
        for starts in &schedules {
            assert!(starts
                .iter()
                .enumerate()
                .all(|(k, &s)| { narrowed.est[k] <= s && s + times.dur[k] <= narrowed.lct[k] }));
        }
        match answer {
            Answer::Settled(count) => moved += usize::from(count > 0),
            Answer::Clash(..) => {
                assert!(schedules.is_empty());
                assert_eq!(narrowed, times);
                clashes += 1;
            }
            _ => panic!("a good list"),
        }
    }
    assert!(moved > 500 && clashes > 300, "{moved} {clashes}");
}

#[test]
fn the_answer_is_the_largest_windows_to_which_no_rule_applies() {
    let mut random = Random::new(22);
    let (mut moved, mut clashes) = (0, 0);
    for round in 0..600 {
        let (most, slack) = if round % 4 == 0 { (4, 3) } else { (3, 5) };
        let times = small(&mut random, most, slack);
        let (answer, narrowed) = run(&times);
        let mut stable = inner_windows(&times);
        stable.retain(|inner| !some_rule_applies(inner));
        assert_eq!(matches!(answer, Answer::Clash(..)), stable.is_empty());
        if stable.is_empty() {
            clashes += 1;
            continue;
        }
        assert!(stable.contains(&narrowed));
        assert!(stable.iter().all(|inner| lies_inside(inner, &narrowed)));
        moved += usize::from(narrowed != times);
    }
    assert!(moved > 80 && clashes > 40, "{moved} {clashes}");
}

#[test]
fn fixed_jobs_clash_exactly_if_two_overlap() {
    let mut random = Random::new(25);
    let mut overlapping = 0;
    for _ in 0..3_000 {
        let mut times = small(&mut random, 4, 5);
        for k in 0..times.est.len() {
            times.est[k] = random.between(0, 12);
            times.lct[k] = times.est[k] + times.dur[k];
        }
        let (answer, after) = run(&times);
        let fits = is_schedule(&times.est, &times.dur);
        assert_eq!(answer == Answer::Settled(0), fits);
        assert_eq!(matches!(answer, Answer::Clash(1, _)), !fits);
        assert_eq!(after, times);
        overlapping += usize::from(!fits);
    }
    assert!(overlapping > 500 && overlapping < 2_500, "{overlapping}");
}
