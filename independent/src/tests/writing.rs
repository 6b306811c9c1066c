//! The call that writes a Patterson text: its bytes, each refusal and their
//! order, what it leaves, and that the reader gives back what was written.

use crate::answers::Answer;
use crate::random::Random;
use crate::reading::{read, Layout, Request};
use crate::tests::lent;
use crate::writing::{write, Listing};

const MARK: u8 = 200;
const DIAMOND: &str = "4 1\n6\n3 2 2 2 3\n4 1 1 4\n1 2 1 4\n2 0 0\n";

fn listing(cap: u32, jobs: &[(u32, u32)], pairs: &[(u32, u32)]) -> Listing {
    Listing {
        cap,
        dur: jobs.iter().map(|job| job.0).collect(),
        dem: jobs.iter().map(|job| job.1).collect(),
        jobs: pairs.iter().map(|pair| pair.0).collect(),
        successors: pairs.iter().map(|pair| pair.1).collect(),
    }
}

fn diamond() -> Listing {
    let jobs = [(3, 2), (4, 1), (1, 2), (2, 0)];
    listing(6, &jobs, &[(0, 1), (0, 2), (1, 3), (2, 3)])
}

/// The number of the refusal, which leaves the buffer as it was.
fn refusal(listing: &Listing) -> Option<u32> {
    let mut buffer = vec![MARK; 10_000];
    let answer = write(listing, &mut buffer);
    let Answer::Refused(number) = answer else {
        return None;
    };
    assert!(buffer.iter().all(|&byte| byte == MARK));
    assert_eq!(write(listing, &mut []), answer);
    Some(number)
}

#[test]
fn the_text_is_written_and_the_rest_stays() {
    for more in [0, 1, 50] {
        let mut buffer = vec![MARK; DIAMOND.len() + more];
        let answer = write(&diamond(), &mut buffer);
        assert_eq!(answer, Answer::Written(DIAMOND.len()));
        let (text, rest) = buffer.split_at(DIAMOND.len());
        assert_eq!(text, DIAMOND.as_bytes());
        assert!(rest.iter().all(|&byte| byte == MARK));
    }
    let mut buffer = vec![MARK; 7];
    let answer = write(&listing(5, &[], &[]), &mut buffer);
    assert_eq!(
        (answer, &buffer[..6]),
        (Answer::Written(6), &b"0 1\n5\n"[..])
    );
}

#[test]
fn a_buffer_too_short_is_36_and_stays() {
    for length in [0, 1, DIAMOND.len() - 1] {
        let mut buffer = vec![MARK; length];
        assert_eq!(write(&diamond(), &mut buffer), Answer::Refused(36));
        assert_eq!(buffer, vec![MARK; length]);
    }
}

#[test]
fn pairs_rise_strictly_by_job_and_then_by_successor() {
    let jobs = [(1, 1); 4];
    let refused = |pairs: &[(u32, u32)]| refusal(&listing(5, &jobs, pairs));
    assert_eq!(refused(&[(0, 1), (0, 2), (0, 3), (1, 2)]), None);
    assert_eq!(refused(&[(0, 3), (1, 2), (2, 3)]), None);
    for pairs in [
        [(0, 1), (0, 1)],
        [(0, 2), (0, 1)],
        [(1, 2), (0, 3)],
        [(0, 4), (1, 2)],
        [(0, 1), (4, 1)],
        [(0, 1), (u32::MAX, 0)],
        [(0, 1), (3, u32::MAX)],
    ] {
        assert_eq!(refused(&pairs), Some(32), "{pairs:?}");
    }
    assert_eq!(refusal(&listing(5, &[], &[(0, 0)])), Some(32));
}

#[test]
fn every_cycle_is_33_after_every_pair_is_tested() {
    let jobs = [(0, 0); 3];
    let refused = |pairs: &[(u32, u32)]| refusal(&listing(0, &jobs, pairs));
    assert_eq!(refused(&[(0, 0)]), Some(33));
    assert_eq!(refused(&[(0, 1), (1, 0)]), Some(33));
    assert_eq!(refused(&[(0, 1), (1, 2), (2, 0)]), Some(33));
    assert_eq!(refused(&[(2, 0), (2, 1)]), None);
    assert_eq!(refused(&[(0, 0), (0, 3)]), Some(32));
    assert_eq!(refused(&[(0, 1), (1, 0), (0, 2)]), Some(32));
}

#[test]
fn limits_are_those_of_the_lists() {
    let good = listing(10_000, &[(1_000_000, 10_000)], &[]);
    assert_eq!(refusal(&good), None);
    for spoil in [
        |l: &mut Listing| l.cap += 1,
        |l: &mut Listing| l.dur[0] += 1,
        |l: &mut Listing| l.dem[0] += 1,
        |l: &mut Listing| l.cap = u32::MAX,
    ] {
        let mut spoilt = good.clone();
        spoil(&mut spoilt);
        assert_eq!(refusal(&spoilt), Some(3));
    }
    assert_eq!(refusal(&listing(10_001, &[], &[])), Some(3));
    assert_eq!(refusal(&listing(1, &[(0, 0); 256], &[(254, 255)])), None);
    assert_eq!(refusal(&listing(1, &[(0, 0); 257], &[])), Some(2));
}

#[test]
fn refusals_come_in_their_order() {
    let mut faulty = listing(10_001, &[(0, 0); 257], &[(0, 1), (1, 0), (1, 0)]);
    faulty.dem.push(0);
    faulty.jobs.push(0);
    assert_eq!(refusal(&faulty), Some(1));
    faulty.dem.pop();
    assert_eq!(refusal(&faulty), Some(2));
    faulty.dur.truncate(2);
    faulty.dem.truncate(2);
    assert_eq!(refusal(&faulty), Some(3));
    faulty.cap = 1;
    assert_eq!(refusal(&faulty), Some(1));
    faulty.jobs.pop();
    assert_eq!(refusal(&faulty), Some(32));
    faulty.jobs.pop();
    faulty.successors.pop();
    assert_eq!(refusal(&faulty), Some(33));
    faulty.jobs.pop();
    faulty.successors.pop();
    assert_eq!(write(&faulty, &mut [MARK; 5]), Answer::Refused(36));
    assert_eq!(refusal(&faulty), None);
}

/// Any numbers, and pairs along an order of the jobs.
fn drawn(random: &mut Random) -> Listing {
    let count = random.below(9);
    let order = random.order(count);
    let mut drawn = listing(random.between(0, 10_000), &[], &[]);
    for job in 0..count {
        drawn.dur.push(random.between(0, 1_000_000 / 9));
        drawn.dem.push(random.between(0, 10_000));
        for successor in 0..count {
            if order[job] < order[successor] && random.one_in(3) {
                drawn.jobs.push(job as u32);
                drawn.successors.push(successor as u32);
            }
        }
    }
    drawn
}

#[test]
fn the_reader_gives_back_what_was_written() {
    let mut random = Random::new(13);
    for _ in 0..2_000 {
        let written = drawn(&mut random);
        let mut buffer = vec![MARK; 1_000];
        let Answer::Written(length) = write(&written, &mut buffer) else {
            panic!("{written:?}");
        };
        let request = Request {
            layout: Layout::Patterson,
            resource: 0,
            horizon: 1_000_000,
            text: buffer[..length].to_vec(),
        };
        let mut lent = lent(written.dur.len(), written.jobs.len(), 7);
        let answer = read(&request, &mut lent);
        assert_eq!(answer, Answer::Read(written.cap, written.jobs.len()));
        assert_eq!((lent.dur, lent.dem), (written.dur, written.dem));
        assert_eq!(lent.jobs, written.jobs);
        assert_eq!(lent.successors, written.successors);
    }
}
