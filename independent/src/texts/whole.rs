//! Calls for whole texts of either layout: the published one with resources,
//! horizons and lists of every kind, and made instances.

use crate::lines::Call;
use crate::make;
use crate::reading::{chains, longest, Layout};
use crate::texts::lent::{call, exact, variations, Lengths};

const MADE: u64 = 5;

/// What a good text asks of its caller.
pub struct Needs {
    pub lengths: Lengths,
    pub resources: u32,
    /// The longest chain, if there is no cycle.
    pub chain: Option<u32>,
}

/// The needs of a text that can be read.
pub fn needs(layout: Layout, text: &[u8]) -> Option<Needs> {
    let project = layout.project(text).ok()?;
    let chain = chains(&project).map(|chains| longest(&project, &chains));
    Some(Needs {
        lengths: exact(project.jobs.len(), project.pairs()),
        resources: project.caps.len() as u32,
        chain: chain.map(|chain| u32::try_from(chain).expect("256 durations fit")),
    })
}

/// Every resource and two that the text lacks with every kind of horizon, then
/// lists of every kind.
pub fn published(layout: Layout, text: &[u8], needs: &Needs) -> Vec<Call> {
    let chain = needs.chain.unwrap_or(0);
    let less = chain.saturating_sub(1);
    let none = needs.resources;
    let last = none.saturating_sub(1);
    let mut calls = Vec::new();
    for horizon in [0, less, chain, 158, 1_000_000, 1_000_001, u32::MAX] {
        for resource in (0..=none).chain([u32::MAX]) {
            calls.push(call(layout, text, resource, horizon, needs.lengths));
        }
    }
    for lengths in variations(needs.lengths) {
        for (resource, horizon) in [(0, chain), (last, 158), (1, less), (none, less)] {
            calls.push(call(layout, text, resource, horizon, lengths));
        }
    }
    calls
}

/// How the name of such a file ends.
fn ending(layout: Layout) -> &'static str {
    match layout {
        Layout::Patterson => "rcp",
        Layout::Psplib => "sm",
    }
}

/// Every resource of made instances of all sizes, with horizons about the chain.
pub fn made(layout: Layout, seed: u64) -> impl Iterator<Item = Call> {
    let sizes = [30, 60, 90, 120].into_iter();
    let each = move |size| (0..MADE).map(move |k| (seed.wrapping_add(k), size));
    sizes.flat_map(each).flat_map(move |(seed, size)| {
        let text =
            make::text(seed, size, ending(layout)).expect("the size is one of the library's");
        about_the_chain(layout, text.as_bytes())
    })
}

/// Calls with a horizon one below the longest chain, the chain, and half as
/// much again; where there is a cycle, with the longest horizon.
pub fn about_the_chain(layout: Layout, text: &[u8]) -> Vec<Call> {
    let needs = needs(layout, text).expect("the text is a good one");
    let horizons = match needs.chain {
        Some(chain) => vec![chain.saturating_sub(1), chain, chain + chain / 2],
        None => vec![1_000_000],
    };
    let mut calls = Vec::new();
    for resource in 0..needs.resources {
        for &horizon in &horizons {
            calls.push(call(layout, text, resource, horizon, needs.lengths));
        }
    }
    calls
}
