//! Calls of the writer: good lists of every size with buffers about the length
//! that they need, each refusal beside each other, all pairs of a few jobs, and
//! what was written given to the reader.

pub mod drawn;
mod faults;
mod limits;
mod small;

use crate::joblist::{MOST_JOBS, MOST_TIME};
use crate::lines::Call;
use crate::make;
use crate::project::Project;
use crate::random::Random;
use crate::reading::Layout::Patterson;
use crate::texts::lent::{call, exact};
use crate::texts::networks;
use crate::texts::whole::needs;
use crate::writing::Listing;

const MADE: u64 = 5;

/// A buffer of bytes that no writer writes.
fn marks(length: usize) -> Vec<u8> {
    (128..=255).cycle().take(length).collect()
}

/// One resource of a project, its pairs brought into order, each kept once.
pub fn listing(project: &Project, resource: usize) -> Listing {
    let mut listing = Listing {
        cap: project.caps[resource],
        ..Listing::default()
    };
    for (k, job) in project.jobs.iter().enumerate() {
        listing.dur.push(job.duration);
        listing.dem.push(job.demands[resource]);
        let mut successors: Vec<u32> = job.successors.iter().map(|&s| s as u32).collect();
        successors.sort_unstable();
        successors.dedup();
        listing.jobs.extend(vec![k as u32; successors.len()]);
        listing.successors.extend(successors);
    }
    listing
}

fn written(listing: &Listing, length: usize) -> Call {
    Call::Write(listing.clone(), marks(length))
}

/// Buffers of the length that is needed, one less, one more, and others.
fn about_the_need(listing: &Listing) -> Vec<Call> {
    let need = listing.text().map_or(40, |text| text.len());
    let lengths = [
        need,
        need.saturating_sub(1),
        need + 1,
        need / 2,
        need + 40,
        0,
    ];
    let calls = lengths.into_iter();
    calls.map(|length| written(listing, length)).collect()
}

/// The call that reads what is written, with lists that fit and a horizon made
/// from the longest chain; none where nothing is written.
pub fn read_back(listing: &Listing, horizon: impl Fn(u32) -> u32) -> Option<Call> {
    let text = listing.text().ok()?;
    let chain = needs(Patterson, &text)?.chain?;
    let lengths = exact(listing.dur.len(), listing.jobs.len());
    Some(call(Patterson, &text, 0, horizon(chain), lengths))
}

fn round_trip(listing: &Listing) -> Vec<Call> {
    let need = listing.text().map_or(0, |text| text.len());
    let horizons: [fn(u32) -> u32; 3] = [|chain| chain, |chain| chain + 7, |_| MOST_TIME];
    let back = horizons.into_iter();
    let back = back.filter_map(|horizon| read_back(listing, horizon));
    [written(listing, need)].into_iter().chain(back).collect()
}

/// The published instance and made ones of each size.
fn instances(published: Project, seed: u64) -> Vec<Call> {
    let sizes = [30, 60, 90, 120].into_iter();
    let made = sizes.flat_map(|size| (0..MADE).map(move |k| (seed.wrapping_add(k), size)));
    let made = made.map(|(seed, size)| make::instance(seed, size));
    let made = made.map(|made| made.expect("the size is one of the library's"));
    let mut calls = Vec::new();
    for project in [published].into_iter().chain(made) {
        for resource in 0..project.caps.len() {
            calls.extend(round_trip(&listing(&project, resource)));
        }
        calls.extend(about_the_need(&listing(&project, 0)));
    }
    calls
}

/// Networks of up to 256 jobs, thin and dense, some with a cycle.
fn large(seed: u64) -> Vec<Call> {
    let mut random = Random::new(seed);
    let mut calls = Vec::new();
    for (jobs, thin) in [(33, 1), (65, 3), (MOST_JOBS, 20), (MOST_JOBS, MOST_JOBS)] {
        for cycle in [false, true] {
            let project = networks::any(&mut random, jobs, thin, cycle);
            calls.extend(about_the_need(&listing(&project, 0)));
            calls.extend(round_trip(&listing(&project, 0)));
        }
    }
    let fullest = listing(&networks::fullest(&mut random), 0);
    calls.extend(round_trip(&fullest).into_iter().take(2));
    let short = fullest.text().map_or(0, |text| text.len() - 1);
    calls.push(written(&fullest, short));
    calls
}

pub fn lines(published: &[u8], seed: u64) -> Result<impl Iterator<Item = Vec<u8>>, String> {
    let project = Patterson.project(published);
    let project = project.map_err(|number| format!("the published text is refused: {number}"))?;
    let calls = instances(project, seed)
        .into_iter()
        .chain(large(seed))
        .chain(small::calls())
        .chain(faults::calls());
    let lines = calls.map(|call: Call| call.line().into_bytes());
    Ok(lines.chain(limits::lines()))
}
