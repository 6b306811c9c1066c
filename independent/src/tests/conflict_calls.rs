//! That calls from a seed mark jobs often, in every way in which a wrong walk
//! over the records would mark others, and are refused beside all of it.

use super::calls::{COUNT, SEED};
use crate::answers::Answer;
use crate::calls::{drawn, sizes};
use crate::conflict::conflict;
use crate::joblist::{Supply, Times, MOST_JOBS};
use crate::lines::{read, Call};
use crate::random::Random;
use crate::record::{shown, Members, Record};
use crate::replay::check;
use std::collections::{BTreeMap, BTreeSet};

/// The jobs marked if the records before the closing one are looked at in this
/// order.
fn walked<'a>(closing: &Record, order: impl Iterator<Item = &'a Record>) -> Members {
    let mut marked = closing.members;
    marked.put(closing.job as usize);
    for record in order {
        if marked.has(record.job as usize) {
            marked.join(&record.members);
        }
    }
    marked
}

/// A record moves a job that is not marked for one that is and one that is not.
fn has_aside(records: &[Record], marked: &Members) -> bool {
    let aside = |record: &Record| {
        let members = record.members.numbers();
        let of_both = |is: bool| members.iter().any(|&k| marked.has(k) == is);
        !marked.has(record.job as usize) && of_both(true) && of_both(false)
    };
    records.iter().any(aside)
}

fn of_marked(records: &[Record], marked: &Members) -> Vec<&'static str> {
    let Some((closing, earlier)) = records.split_last() else {
        return vec!["without a record"];
    };
    let again = || earlier.iter().rev().chain(earlier.iter().rev());
    let mut alone = Members::default();
    alone.put(closing.job as usize);
    let all = [
        (earlier.is_empty(), "by one record"),
        (marked.ones() > 2, "several"),
        (marked.ones() > 7, "many"),
        (marked.numbers().iter().any(|&k| k > 31), "beyond a word"),
        (marked == &alone, "alone"),
        (
            marked != &walked(closing, [].iter()),
            "by an earlier record",
        ),
        (marked != &walked(closing, earlier.iter()), "backwards"),
        (marked != &walked(closing, again()), "once"),
        (
            marked != &walked(closing, earlier.iter().skip(1).rev()),
            "by the first",
        ),
        (has_aside(records, marked), "beside a record aside"),
    ];
    let those = all.iter().filter(|(fact, _)| *fact);
    those.map(|&(_, name)| name).collect()
}

fn uses(times: &Times, supply: &Supply, count: u64, log: &[u32]) -> Vec<String> {
    let (answer, marked) = conflict(times, supply, count, log);
    let checked = check(&mut times.clone(), supply, count, log);
    let said = match (answer, checked) {
        (Answer::Marked(_), _) => "marked".to_string(),
        (Answer::Refused(8), Answer::Rejected(_, code)) => format!("8 for {code}"),
        (Answer::Refused(8), _) if count == 0 => "8 without a record".to_string(),
        (Answer::Refused(8), _) => "8 for no clash".to_string(),
        (Answer::Refused(number), _) => format!("{number}"),
        _ => panic!("no answer of this call"),
    };
    let record = |place: u64| Record::from_words(shown(place, log));
    let more = match answer {
        Answer::Marked(_) => of_marked(&(0..count).map(record).collect::<Vec<_>>(), &marked),
        _ => Vec::new(),
    };
    let more = more.iter().map(|word| format!("marked {word}"));
    [said].into_iter().chain(more).collect()
}

/// The least number of each use.
const OFTEN: [(&str, usize); 26] = [
    ("1", 20),
    ("2", 10),
    ("3", 20),
    ("6", 50),
    ("7", 70),
    ("8 for 20", 40),
    ("8 for 21", 12),
    ("8 for 22", 8),
    ("8 for 23", 5),
    ("8 for 24", 5),
    ("8 for 25", 7),
    ("8 for 26", 1),
    ("8 for 27", 3),
    ("8 for no clash", 30),
    ("8 without a record", 50),
    ("marked", 400),
    ("marked without a record", 20),
    ("marked by one record", 100),
    ("marked alone", 50),
    ("marked several", 250),
    ("marked many", 40),
    ("marked beyond a word", 40),
    ("marked by an earlier record", 150),
    ("marked by the first", 40),
    ("marked backwards", 20),
    ("marked beside a record aside", 15),
];

fn counts(calls: impl Iterator<Item = Call>) -> BTreeMap<String, usize> {
    let mut counts = BTreeMap::new();
    for call in calls {
        if let Call::Conflict(times, supply, count, log) = call {
            for found in uses(&times, &supply, count, &log) {
                *counts.entry(found).or_default() += 1;
            }
        }
    }
    counts
}

#[test]
fn every_use_comes_up_often() {
    let counts = counts(drawn(SEED, COUNT).filter_map(|line| read(&line)));
    for (wanted, least) in OFTEN {
        let count = counts.get(wanted).copied().unwrap_or(0);
        assert!(count >= least, "{wanted} {count}");
    }
}

/// Whether the last job is marked, and whether the closing record names it.
fn last_is(times: &Times, supply: &Supply, count: u64, log: &[u32]) -> Option<(bool, bool)> {
    let (answer, marked) = conflict(times, supply, count, log);
    if !matches!(answer, Answer::Marked(_)) {
        return None;
    }
    let closing = Record::from_words(shown(count.checked_sub(1)?, log));
    let last = times.est.len() - 1;
    let named = closing.job as usize == last || closing.members.has(last);
    Some((marked.has(last), named))
}

#[test]
fn the_last_job_of_every_size_is_marked_in_every_way() {
    let asked = sizes::calls(&mut Random::new(SEED));
    for jobs in sizes::SIZES
        .into_iter()
        .filter(|jobs| (5..=MOST_JOBS).contains(jobs))
    {
        let mut found = BTreeSet::new();
        for call in &asked {
            if let Call::Conflict(times, supply, count, log) = call {
                if times.est.len() == jobs {
                    found.extend(uses(times, supply, *count, log));
                    let how = last_is(times, supply, *count, log);
                    found.extend(how.map(|how| format!("{how:?}")));
                }
            }
        }
        for wanted in [
            "(true, true)",
            "(true, false)",
            "(false, false)",
            "marked by the first",
            "marked backwards",
            "marked once",
            "marked without a record",
            "marked alone",
            "marked many",
        ] {
            assert!(found.contains(wanted), "{jobs} {wanted}");
        }
    }
}
