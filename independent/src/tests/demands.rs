//! The tester's demands on small lists, by brute force over schedules, windows
//! and orders; a window that is too short holds no start and no other window.

use super::short::assert_named;
use super::{run, small_lists, windows};
use crate::answers::Answer;
use crate::joblist::{Supply, Times};
use crate::random::Random;
use crate::record::RECORD_WORDS;
use crate::replay::check;
use crate::timetable::narrow;

/// Every start of each job within its window, as a list of lists.
pub fn choices(times: &Times) -> Vec<Vec<u32>> {
    let mut all = vec![Vec::new()];
    for k in 0..times.est.len() {
        let starts = times.est[k]..(times.lct[k] + 1).saturating_sub(times.dur[k]);
        let longer = |starts_so_far: Vec<u32>| {
            starts
                .clone()
                .map(move |s| [starts_so_far.clone(), vec![s]].concat())
        };
        all = all.into_iter().flat_map(longer).collect();
    }
    all
}

fn is_schedule(starts: &[u32], dur: &[u32], supply: &Supply) -> bool {
    (0..20).all(|t| {
        let runs = |&k: &usize| starts[k] <= t && t < starts[k] + dur[k];
        let draw: u32 = (0..starts.len()).filter(runs).map(|k| supply.dem[k]).sum();
        draw <= supply.cap
    })
}

#[test]
fn no_schedule_is_lost() {
    let mut random = Random::new(2);
    for _ in 0..3_000 {
        let (times, supply) = small_lists(&mut random);
        let (answer, narrowed, _) = run(&times, &supply);
        for starts in choices(&times) {
            if is_schedule(&starts, &times.dur, &supply) {
                assert!(matches!(answer, Answer::Settled(_)));
                assert!(starts.iter().enumerate().all(|(k, &s)| {
                    narrowed.est[k] <= s && s + times.dur[k] <= narrowed.lct[k]
                }));
            }
        }
    }
}

#[test]
fn fixed_jobs_clash_exactly_if_overdrawn() {
    let mut random = Random::new(3);
    for _ in 0..3_000 {
        let (mut times, supply) = small_lists(&mut random);
        for k in 0..times.est.len() {
            times.lct[k] = times.est[k] + times.dur[k];
        }
        let mut log = [0; RECORD_WORDS];
        let answer = narrow(&mut times.clone(), &supply, &mut log);
        let fits = is_schedule(&times.est, &times.dur, &supply);
        assert_eq!(answer == Answer::Settled(0), fits);
        assert_eq!(matches!(answer, Answer::Clash(1, _)), !fits);
    }
}

/// All sets of windows inside these, each long enough for its job.
pub fn inner_windows(times: &Times) -> Vec<Times> {
    let mut all = vec![Times::default()];
    for k in 0..times.est.len() {
        let (e, l, p) = (times.est[k], times.lct[k], times.dur[k]);
        let mut longer = Vec::new();
        for so_far in all {
            for est in e..(l + 1).saturating_sub(p) {
                for lct in est + p..=l {
                    let mut next = so_far.clone();
                    next.push(est, lct, p);
                    longer.push(next);
                }
            }
        }
        all = longer;
    }
    all
}

pub fn lies_inside(inner: &Times, outer: &Times) -> bool {
    let mut windows = windows(inner).into_iter().zip(windows(outer));
    windows.all(|((e, l), (outer_e, outer_l))| outer_e <= e && l <= outer_l)
}

#[test]
fn the_answer_is_the_largest_windows_to_which_no_rule_applies() {
    let mut random = Random::new(8);
    for _ in 0..300 {
        let (times, supply) = small_lists(&mut random);
        let (answer, narrowed, _) = run(&times, &supply);
        let mut stable = inner_windows(&times);
        stable.retain(|inner| run(inner, &supply).0 == Answer::Settled(0));
        assert_eq!(matches!(answer, Answer::Clash(..)), stable.is_empty());
        if !stable.is_empty() {
            assert!(stable.contains(&narrowed));
            assert!(stable.iter().all(|inner| lies_inside(inner, &narrowed)));
        }
    }
}

#[test]
fn the_order_of_the_list_does_not_matter() {
    let mut random = Random::new(4);
    for _ in 0..3_000 {
        let (times, supply) = small_lists(&mut random);
        let (mut turned, mut turned_supply) = (times.clone(), supply.clone());
        for list in [
            &mut turned.est,
            &mut turned.lct,
            &mut turned.dur,
            &mut turned_supply.dem,
        ] {
            list.reverse();
        }
        let (answer, narrowed, _) = run(&times, &supply);
        let (again, mut turned, _) = run(&turned, &turned_supply);
        turned.est.reverse();
        turned.lct.reverse();
        assert_eq!(windows(&narrowed), windows(&turned));
        assert_eq!(
            matches!(answer, Answer::Clash(..)),
            matches!(again, Answer::Clash(..))
        );
    }
}

#[test]
fn every_log_written_is_taken_to_the_same_end() {
    let mut random = Random::new(5);
    for _ in 0..3_000 {
        let (times, supply) = small_lists(&mut random);
        let (answer, narrowed, log) = run(&times, &supply);
        let mut checked = times.clone();
        match answer {
            Answer::Settled(count) => {
                let again = check(&mut checked, &supply, count as u64, &log);
                assert_eq!(again, Answer::Holds(count));
            }
            Answer::Clash(count, job) => {
                let again = check(&mut checked, &supply, count as u64, &log);
                assert_eq!(again, Answer::Clash(count, job));
            }
            _ => panic!("a good list with room"),
        }
        assert_eq!(checked, narrowed);
    }
}

#[test]
fn the_count_is_at_most_the_slack_and_one_more_in_a_clash() {
    let mut random = Random::new(6);
    let mut too_short = 0;
    for _ in 0..3_000 {
        let (times, supply) = small_lists(&mut random);
        let slack = |k: usize| times.lct[k].checked_sub(times.est[k] + times.dur[k]);
        let slacks: Vec<Option<u32>> = (0..times.est.len()).map(slack).collect();
        if let Some(lowest) = slacks.iter().position(Option::is_none) {
            assert_named(lowest, &times, &supply);
            too_short += 1;
            continue;
        }
        let most: u32 = slacks.into_iter().flatten().sum();
        match run(&times, &supply).0 {
            Answer::Settled(count) => assert!(count <= most as usize),
            Answer::Clash(count, _) => assert!(count <= most as usize + 1),
            _ => panic!("a good list with room"),
        }
    }
    assert!(too_short > 100);
}
