//! The read head's runs on drawn lists: both ways to a bound agree, the order of the
//! list does not matter, the moves are few, and what is settled stays.

use super::head_demands::run;
use super::windows;
use crate::answers::Answer;
use crate::calls::heads::drawn;
use crate::head::{by_all_sets, by_thresholds, head, head_by, FEW};
use crate::joblist::{good_jobs, Job, Supply, Times};
use crate::random::Random;
use crate::timetable::Side;

fn jobs_of(times: &Times) -> Vec<Job> {
    good_jobs(times, &Supply::of_one(times.est.len())).unwrap()
}

#[test]
fn both_ways_give_the_same_bound() {
    let mut random = Random::new(11);
    for _ in 0..2_000 {
        let jobs = random.between(0, FEW as u32 + 1);
        let jobs = jobs_of(&drawn::around(&mut random, jobs));
        for side in [Side::Start, Side::End] {
            let all_sets = by_all_sets(&jobs, side);
            assert_eq!(all_sets, by_thresholds(&jobs, side));
            assert_eq!(all_sets.is_none(), jobs.is_empty());
        }
    }
}

#[test]
fn both_ways_make_the_same_run() {
    let mut random = Random::new(12);
    let (mut moved, mut closed) = (0, 0);
    for _ in 0..4_000 {
        let mut times = drawn::any(&mut random);
        if times.est.len() > FEW + 1 {
            continue;
        }
        let mut by_sets = times.clone();
        let mut by_either = times.clone();
        let answer = head_by(by_thresholds, &mut times);
        assert_eq!(answer, head_by(by_all_sets, &mut by_sets));
        assert_eq!(answer, head(&mut by_either));
        assert_eq!((&times, &times), (&by_sets, &by_either));
        moved += usize::from(matches!(answer, Answer::Settled(1..)));
        closed += usize::from(matches!(answer, Answer::Clash(..)));
    }
    assert!(moved > 600 && closed > 300, "{moved} {closed}");
}

fn in_order(times: &Times, order: &[usize]) -> Times {
    let mut listed = Times::default();
    for &k in order {
        listed.push(times.est[k], times.lct[k], times.dur[k]);
    }
    listed
}

#[test]
fn the_order_of_the_list_does_not_matter() {
    let mut random = Random::new(23);
    let mut other_counts = 0;
    for _ in 0..3_000 {
        let times = drawn::any(&mut random);
        let order = random.order(times.est.len());
        let (answer, narrowed) = run(&times);
        let (again, listed) = run(&in_order(&times, &order));
        let windows_again = windows(&listed);
        assert_eq!(windows(&in_order(&narrowed, &order)), windows_again);
        match (answer, again) {
            (Answer::Settled(one), Answer::Settled(other)) => {
                other_counts += usize::from(one != other);
            }
            (Answer::Clash(..), Answer::Clash(..)) => {}
            _ => panic!("{times:?}"),
        }
    }
    assert!(other_counts > 20, "{other_counts}");
}

#[test]
fn the_count_is_at_most_the_slack_and_one_more_in_a_clash() {
    let mut random = Random::new(24);
    for _ in 0..3_000 {
        let times = drawn::any(&mut random);
        let slack = |k: usize| u64::from(times.lct[k] - times.est[k] - times.dur[k]);
        let most: u64 = (0..times.est.len()).map(slack).sum();
        match run(&times).0 {
            Answer::Settled(count) => assert!(count as u64 <= most),
            Answer::Clash(count, _) => assert!(1 <= count && count as u64 <= most + 1),
            _ => panic!("a good list"),
        }
    }
}

/// No rule is left, and what was found is propagated (001, Definition 4).
#[test]
fn settled_windows_stay_and_keep_their_order() {
    let mut random = Random::new(26);
    for _ in 0..3_000 {
        let (answer, narrowed) = run(&drawn::any(&mut random));
        if !matches!(answer, Answer::Settled(_)) {
            continue;
        }
        assert_eq!(run(&narrowed), (Answer::Settled(0), narrowed.clone()));
        let Times { est, lct, dur } = &narrowed;
        let lasting: Vec<usize> = (0..est.len()).filter(|&k| dur[k] >= 1).collect();
        for &i in &lasting {
            for &j in lasting.iter().filter(|&&j| j != i) {
                if est[i] + dur[i] > lct[j] - dur[j] {
                    assert!(est[i] >= est[j] + dur[j]);
                    assert!(lct[j] <= lct[i] - dur[i]);
                }
            }
        }
    }
}
