//! That calls from a seed reach everything they should and cost little.

use crate::calls::drawn;
use crate::joblist::{good_jobs, lowest_too_short, Times};
use crate::lines::{answer, read, Call};
use std::collections::BTreeSet;

pub const SEED: u64 = 1;
/// So many drawn calls reach every kind that the tests of them ask for.
pub const COUNT: u64 = 8_100;

/// The kind of call, the word of the answer, and its refusal or code.
pub fn kind(line: &[u8]) -> String {
    let answer = answer(line);
    let words: Vec<&str> = answer.split(' ').collect();
    let answered = match words[..] {
        ["refused", number, ..] => format!("refused {number}"),
        ["rejected", _, code, ..] => format!("rejected {code}"),
        ["settled", "0", ..] => "settled 0".to_string(),
        ["holds", "0", ..] => "holds 0".to_string(),
        ["clash", "0", ..] => "clash 0".to_string(),
        ["record", length, ..] => format!("shown {length}"),
        [word, ..] => word.to_string(),
        [] => String::new(),
    };
    match read(line) {
        Some(Call::Narrow(..)) => format!("narrow {answered}"),
        Some(Call::Check(..)) => format!("check {answered}"),
        Some(Call::Conflict(..)) => format!("conflict {answered}"),
        Some(Call::Record(..)) => format!("record {answered}"),
        Some(Call::Overload(..)) => format!("overload {answered}"),
        Some(Call::Head(..)) => format!("head {answered}"),
        Some(Call::Read(request, _)) => format!("{} {answered}", request.layout.name()),
        Some(Call::Write(..)) => format!("write {answered}"),
        None => answered,
    }
}

fn wanted() -> BTreeSet<String> {
    let kinds = [
        "narrow settled, narrow settled 0, narrow clash, narrow clash 0",
        "narrow refused 1, narrow refused 2, narrow refused 3, narrow refused 5",
        "narrow refused 7, check refused 7",
        "check holds, check holds 0, check clash, check clash 0",
        "check refused 1, check refused 2, check refused 3, check refused 6",
        "check rejected 20, check rejected 21, check rejected 22, check rejected 23",
        "check rejected 24, check rejected 25, check rejected 26, check rejected 27",
        "conflict marked, conflict refused 1, conflict refused 2, conflict refused 3",
        "conflict refused 6, conflict refused 7, conflict refused 8",
        "record shown 0, record shown 12",
        "overload none, overload overload",
        "overload refused 1, overload refused 2, overload refused 3",
        "head settled, head settled 0, head clash, head clash 0",
        "head refused 1, head refused 2, head refused 3",
        "unreadable",
    ];
    let kinds = kinds.iter().flat_map(|line| line.split(", "));
    kinds.map(str::to_string).collect()
}

#[test]
fn every_answer_refusal_and_code_comes_up() {
    let found: BTreeSet<String> = drawn(SEED, COUNT).map(|line| kind(&line)).collect();
    assert_eq!(found, wanted());
}

#[test]
fn the_same_seed_makes_the_same_calls() {
    let some: Vec<Vec<u8>> = drawn(SEED, 50).collect();
    assert!(drawn(SEED, 50).eq(some.iter().cloned()));
    assert!(!drawn(SEED + 1, 50).eq(some));
}

#[test]
fn no_call_holds_a_line_feed() {
    assert!(drawn(SEED, COUNT).all(|line| !line.contains(&b'\n')));
}

fn steps(times: &Times) -> u64 {
    let total: u64 = times.dur.iter().map(|&p| u64::from(p)).sum();
    times.est.len() as u64 * total
}

#[test]
fn no_call_is_long_work() {
    for line in drawn(SEED, COUNT) {
        if let Some(Call::Narrow(times, supply, _)) = read(&line) {
            let jobs = good_jobs(&times, &supply);
            if jobs.is_ok_and(|jobs| lowest_too_short(&jobs).is_none()) {
                assert!(steps(&times) <= 2_100_000);
            }
        }
    }
}
