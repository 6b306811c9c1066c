//! Lent lists of any lengths. Every word is one that no reader writes, another
//! in each place, so that a word left alone is told from one written.

use crate::lines::Call;
use crate::reading::{Layout, Lent, Request};

/// How long the six lists are, in the order of the line.
pub type Lengths = [usize; 6];

fn marks(list: u32, length: usize) -> Vec<u32> {
    (list * 1_100_000..).take(length).collect()
}

fn lent(lengths: Lengths) -> Lent {
    let [est, lct, dur, dem, jobs, successors] = lengths;
    Lent {
        est: marks(1, est),
        lct: marks(2, lct),
        dur: marks(3, dur),
        dem: marks(4, dem),
        jobs: marks(5, jobs),
        successors: marks(6, successors),
    }
}

pub fn exact(jobs: usize, pairs: usize) -> Lengths {
    [jobs, jobs, jobs, jobs, pairs, pairs]
}

/// Each list shorter by one, longer by one and empty; then room for pairs that
/// is longer in both lists, and longer in one where the other is short.
pub fn variations(lengths: Lengths) -> Vec<Lengths> {
    let mut all = Vec::new();
    for list in 0..lengths.len() {
        let length = lengths[list];
        for other in [length.saturating_sub(1), length + 1, 0] {
            let mut changed = lengths;
            changed[list] = other;
            all.push(changed);
        }
    }
    let [est, lct, dur, dem, jobs, successors] = lengths;
    let pairs = [
        [jobs + 7, successors + 3],
        [jobs.saturating_sub(1), successors + 1],
        [jobs + 1, successors.saturating_sub(1)],
    ];
    all.extend(pairs.map(|[jobs, successors]| [est, lct, dur, dem, jobs, successors]));
    all
}

pub fn call(layout: Layout, text: &[u8], resource: u32, horizon: u32, lengths: Lengths) -> Call {
    let request = Request {
        layout,
        resource,
        horizon,
        text: text.to_vec(),
    };
    Call::Read(request, lent(lengths))
}
