//! Writing lists of a few jobs: all pairs there are, in order and not, and each
//! length of the buffer.

use crate::lines::Call;
use crate::texts::writes::{read_back, written};
use crate::writing::Listing;

pub fn small(jobs: usize, pairs: &[(u32, u32)]) -> Listing {
    Listing {
        cap: 5,
        dur: [3, 0, 12, 1, 7].into_iter().cycle().take(jobs).collect(),
        dem: [2, 10, 0, 5].into_iter().cycle().take(jobs).collect(),
        jobs: pairs.iter().map(|pair| pair.0).collect(),
        successors: pairs.iter().map(|pair| pair.1).collect(),
    }
}

/// Every pair of numbers below `limit`, in order.
fn all_pairs(limit: u32) -> Vec<(u32, u32)> {
    let numbers = 0..limit;
    numbers
        .flat_map(|job| (0..limit).map(move |successor| (job, successor)))
        .collect()
}

/// Every set of pairs of three jobs, in order.
fn sets() -> impl Iterator<Item = Listing> {
    let pairs = all_pairs(3);
    (0..1_usize << pairs.len()).map(move |set| {
        let chosen = pairs.iter().enumerate();
        let chosen = chosen.filter(|(bit, _)| set >> bit & 1 == 1);
        let chosen: Vec<(u32, u32)> = chosen.map(|(_, &pair)| pair).collect();
        small(3, &chosen)
    })
}

/// Up to two pairs for two jobs, of numbers in range and one more, in any order.
fn rows() -> Vec<Listing> {
    let pairs = all_pairs(3);
    let mut rows = vec![small(2, &[]), small(0, &[]), small(1, &[])];
    for &first in &pairs {
        rows.extend([0, 1, 2].map(|jobs| small(jobs, &[first])));
        rows.extend(pairs.iter().map(|&second| small(2, &[first, second])));
    }
    rows
}

/// Buffers of every length up to three more than is needed.
fn buffers() -> Vec<Call> {
    let diamond = small(4, &[(0, 1), (0, 2), (1, 3), (2, 3)]);
    let mut calls = Vec::new();
    for listing in [small(0, &[]), small(1, &[]), diamond] {
        let need = listing.text().expect("the list is a good one").len();
        calls.extend((0..need + 4).map(|length| written(&listing, length)));
    }
    calls
}

/// What is written is read with a horizon of the chain and of one less.
pub fn calls() -> Vec<Call> {
    let mut calls = buffers();
    for listing in sets().chain(rows()) {
        calls.push(written(&listing, 50));
        calls.extend(read_back(&listing, |chain| chain));
        calls.extend(read_back(&listing, |chain| chain.saturating_sub(1)));
    }
    calls
}
