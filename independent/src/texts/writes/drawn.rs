//! Lists to be written, drawn from a seed: small ones mostly, some with faults
//! in numbers and in pairs, with buffers that are about as long as is needed.

use crate::lines::Call;
use crate::random::Random;
use crate::texts::drawn::project;
use crate::texts::writes::{listing, marks, read_back};
use crate::writing::Listing;

fn pair(random: &mut Random, list: &Listing) -> (u32, u32) {
    let count = list.dur.len() as u32;
    let near = random.pick(&[count, count + 1, 256, u32::MAX]);
    let number = |random: &mut Random| match random.below(12) {
        0 => near,
        _ => random.between(0, count.saturating_sub(1)),
    };
    (number(random), number(random))
}

/// Puts a pair where it belongs, or anywhere.
fn put(random: &mut Random, list: &mut Listing) {
    let new = pair(random, list);
    let count = list.jobs.len().min(list.successors.len());
    let before = (0..count).filter(|&place| (list.jobs[place], list.successors[place]) < new);
    let fit = before.count();
    let anywhere = random.below(count + 1);
    let place = if random.one_in(5) { anywhere } else { fit };
    list.jobs.insert(place, new.0);
    list.successors.insert(place, new.1);
}

fn spoil_pairs(random: &mut Random, list: &mut Listing) {
    let count = list.jobs.len().min(list.successors.len());
    if count == 0 || random.one_in(3) {
        return put(random, list);
    }
    let (place, other) = (random.below(count), random.below(count));
    match random.below(6) {
        0 => list.jobs.swap(place, other),
        1 => list.successors.swap(place, other),
        2 => std::mem::swap(&mut list.jobs[place], &mut list.successors[place]),
        3 => (list.jobs[place], list.successors[place]) = pair(random, list),
        4 => list.jobs.truncate(place),
        _ => list.successors.truncate(place),
    }
}

fn spoil_lists(random: &mut Random, list: &mut Listing) {
    let great = random.pick(&[10_000, 10_001, 1_000_000, 1_000_001, u32::MAX]);
    let place = random.below(list.dur.len() + 1);
    match random.below(6) {
        0 => list.cap = great,
        1 => list.dur.insert(place, 1),
        2 => list.dem.truncate(place),
        3 => list
            .dur
            .iter_mut()
            .skip(place)
            .take(1)
            .for_each(|p| *p = great),
        _ => list
            .dem
            .iter_mut()
            .skip(place)
            .take(1)
            .for_each(|r| *r = great),
    }
}

/// Marks, or bytes like those of a text.
fn buffer(random: &mut Random, list: &Listing) -> Vec<u8> {
    let need = list.text().map_or(random.below(60), |text| text.len());
    let length = match random.below(8) {
        0..=2 => need,
        3 => need.saturating_sub(1),
        4 => need + 1,
        5 => random.below(need + 1),
        _ => need + random.below(30),
    };
    if random.one_in(2) {
        return marks(length);
    }
    let any = random.pick(&[&b"0123456789 \n"[..], b"\x00\xff", b"1 \n\x80\x7f"]);
    (0..length).map(|_| random.pick(any)).collect()
}

/// A call of the writer, and often the reader's of what was written.
pub fn calls(random: &mut Random) -> Vec<Call> {
    let mut project = project(random);
    if project.caps.is_empty() {
        project.caps.push(random.between(0, 9));
        project.jobs.iter_mut().for_each(|job| job.demands.push(1));
    }
    let mut list = listing(&project, random.below(project.caps.len()));
    while random.one_in(4) {
        spoil_pairs(random, &mut list);
    }
    while random.one_in(9) {
        spoil_lists(random, &mut list);
    }
    let buffer = buffer(random, &list);
    let mut calls = vec![Call::Write(list.clone(), buffer)];
    if random.one_in(2) {
        let more = random.pick(&[0, 0, 1, 50]);
        calls.extend(read_back(&list, |chain| chain + more));
    }
    calls
}
