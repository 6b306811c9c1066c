//! Writing lists with faults: each alone in each place, and all sets of them,
//! so that every refusal stands beside every other.

use crate::joblist::{MOST_DEMAND, MOST_JOBS, MOST_TIME};
use crate::lines::Call;
use crate::texts::writes::small::small;
use crate::texts::writes::written;
use crate::writing::Listing;

type Fault = fn(&mut Listing);

/// Each fault in three ways, in the order of their tests: 1, 2, 3, 1 for the
/// pairs, 32, 33.
const FAULTS: [[Fault; 3]; 6] = [
    [
        |list| list.dem.push(0),
        |list| list.dur.push(0),
        |list| list.dem.clear(),
    ],
    [
        |list| lengthen(list, MOST_JOBS + 1),
        |list| lengthen(list, MOST_JOBS + 44),
        |list| lengthen(list, MOST_JOBS + 2),
    ],
    [
        |list| list.cap = MOST_DEMAND + 1,
        |list| list.dur[2] = MOST_TIME + 1,
        |list| list.dem[0] = u32::MAX,
    ],
    [
        |list| list.jobs.push(9),
        |list| list.successors.push(4),
        |list| list.jobs.truncate(1),
    ],
    [
        |list| list.successors[3] = 10_000,
        |list| list.jobs.swap(0, 2),
        |list| list.successors[1] = list.successors[0],
    ],
    [
        |list| push(list, 4, 0),
        |list| push(list, 4, 4),
        |list| push(list, 3, 1),
    ],
];

fn push(list: &mut Listing, job: u32, successor: u32) {
    list.jobs.push(job);
    list.successors.push(successor);
}

fn lengthen(list: &mut Listing, jobs: usize) {
    list.dur.resize(jobs, 1);
    list.dem.resize(jobs, 1);
}

/// Five jobs; the fifth comes after no other, and pairs of it come last.
fn good() -> Listing {
    small(5, &[(0, 1), (0, 2), (0, 4), (1, 3), (2, 3)])
}

/// Every set of faults in each way, with a buffer that is long enough and with
/// one that is not.
fn sets() -> Vec<Call> {
    let mut calls = Vec::new();
    for set in 0..1_usize << FAULTS.len() {
        for way in 0..3 {
            let mut list = good();
            let ways = FAULTS.iter().enumerate();
            let chosen = ways.filter(|(fault, _)| set >> fault & 1 == 1);
            // Those found last come first, so that each still finds its place.
            chosen.rev().for_each(|(_, ways)| ways[way](&mut list));
            let need = list.text().map_or(60, |text| text.len());
            calls.extend([need, need - 1].map(|length| written(&list, length)));
        }
    }
    calls
}

/// Each number at its limit, above it, and as great as a word.
fn limits() -> Vec<Listing> {
    let mut lists = Vec::new();
    for great in [MOST_DEMAND, MOST_DEMAND + 1, u32::MAX] {
        lists.push(Listing {
            cap: great,
            ..good()
        });
        lists.push(Listing {
            cap: great,
            ..Listing::default()
        });
        for k in 0..5 {
            let mut list = good();
            list.dem[k] = great;
            lists.push(list);
        }
    }
    for great in [MOST_TIME, MOST_TIME + 1, u32::MAX] {
        for k in 0..5 {
            let mut list = good();
            list.dur[k] = great;
            lists.push(list);
        }
    }
    lists
}

/// Each pair out of range, twice, in the other's place, reversed, and gone.
fn pairs() -> Vec<Listing> {
    let mut lists = Vec::new();
    let count = good().jobs.len();
    for place in 0..count {
        for number in [0, 4, 5, 6, 256, 1 << 31, u32::MAX] {
            let (mut list, mut other) = (good(), good());
            list.jobs[place] = number;
            other.successors[place] = number;
            lists.extend([list, other]);
        }
        for other in 0..count {
            let (mut twice, mut swapped) = (good(), good());
            twice.jobs.insert(other, twice.jobs[place]);
            twice.successors.insert(other, twice.successors[place]);
            swapped.jobs.swap(place, other);
            swapped.successors.swap(place, other);
            lists.extend([twice, swapped]);
        }
        let (mut reversed, mut gone) = (good(), good());
        std::mem::swap(&mut reversed.jobs[place], &mut reversed.successors[place]);
        gone.jobs.remove(place);
        lists.push(gone.clone());
        gone.successors.remove(place);
        lists.extend([reversed, gone]);
    }
    lists
}

pub fn calls() -> Vec<Call> {
    let mut calls = sets();
    let lists = [limits(), pairs()].concat();
    calls.extend(lists.iter().map(|list| written(list, 90)));
    calls
}
