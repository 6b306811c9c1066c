//! The numbers of a text before they are put together, with faults in a number
//! and in how many numbers there are.

use crate::project::Project;
use crate::random::Random;

/// The words of a text, and the places of those that count or name successors
/// and of those that start a section, but the first.
#[derive(Default)]
pub struct Draft {
    pub words: Vec<Vec<u8>>,
    jobs: usize,
    counts: Vec<usize>,
    successors: Vec<usize>,
    starts: Vec<usize>,
}

const NO_NUMBERS: [&[u8]; 12] = [
    b"+1",
    b"-1",
    b"1.0",
    b"1,0",
    b"0x1",
    b"300x",
    b"x",
    b"1e2",
    b"1\x00",
    b"\xff",
    b"99999999999x",
    b"\xd9\xa0",
];

/// Numbers about the limits and about the ends of words of 32 and 64 bits.
const GREAT: [&str; 16] = [
    "8",
    "9",
    "256",
    "257",
    "10000",
    "10001",
    "1000000",
    "1000001",
    "4294967295",
    "4294967296",
    "4294967297",
    "18446744073709551615",
    "18446744073709551616",
    "18446744073709551617",
    "340282366920938463463374607431768211457",
    "100000000000000000000000000000000000000000000000000000000001",
];

impl Draft {
    pub fn push(&mut self, number: impl ToString) {
        self.words.push(number.to_string().into_bytes());
    }

    fn successors(&mut self, successors: &[usize]) {
        self.counts.push(self.words.len());
        self.push(successors.len());
        for s in successors {
            self.successors.push(self.words.len());
            self.push(s + 1);
        }
    }

    pub fn patterson(project: &Project) -> Draft {
        let mut draft = Draft {
            jobs: project.jobs.len(),
            ..Draft::default()
        };
        draft.push(project.jobs.len());
        draft.push(project.caps.len());
        project.caps.iter().for_each(|cap| draft.push(cap));
        for job in &project.jobs {
            draft.push(job.duration);
            job.demands.iter().for_each(|demand| draft.push(demand));
            draft.successors(&job.successors);
        }
        draft
    }

    pub fn psplib(project: &Project) -> Draft {
        let mut draft = Draft {
            jobs: project.jobs.len(),
            ..Draft::default()
        };
        draft.push(project.jobs.len());
        draft.section();
        draft.push(project.caps.len());
        draft.section();
        for (k, job) in project.jobs.iter().enumerate() {
            draft.push(k + 1);
            draft.push(1);
            draft.successors(&job.successors);
        }
        draft.section();
        for (k, job) in project.jobs.iter().enumerate() {
            draft.push(k + 1);
            draft.push(1);
            draft.push(job.duration);
            job.demands.iter().for_each(|demand| draft.push(demand));
        }
        draft.section();
        project.caps.iter().for_each(|cap| draft.push(cap));
        draft
    }

    /// What comes next belongs to another section.
    fn section(&mut self) {
        self.starts.push(self.words.len());
    }

    /// The words of each section.
    pub fn sections(&self) -> Vec<&[Vec<u8>]> {
        let mut rest = &self.words[..];
        let mut sections = Vec::new();
        for &start in self.starts.iter().rev() {
            let (before, section) = rest.split_at(start);
            sections.insert(0, section);
            rest = before;
        }
        sections.insert(0, rest);
        sections
    }

    /// Zeros before a number, which change nothing.
    fn with_zeros(&mut self, random: &mut Random) {
        let place = random.below(self.words.len());
        let zeros = vec![b'0'; 1 + random.below(40)];
        self.words[place].splice(0..0, zeros);
    }

    /// The number and 2^32 or 2^64, which wrapping would take for the number.
    fn wrapped(&mut self, random: &mut Random, place: usize) {
        let word = String::from_utf8_lossy(&self.words[place]);
        let value: u128 = word.parse().unwrap_or(1);
        let sum = value + random.pick(&[1 << 32, 1 << 64, 3 << 64]);
        self.words[place] = sum.to_string().into_bytes();
    }

    fn other_number(&mut self, random: &mut Random, place: usize) {
        let jobs = self.jobs;
        let near = random.pick(&[0, 1, jobs.saturating_sub(1), jobs, jobs + 1]);
        let great = random.pick(&GREAT).to_string();
        match random.below(5) {
            0 => self.wrapped(random, place),
            1 => self.words[place] = great.into_bytes(),
            _ => self.words[place] = near.to_string().into_bytes(),
        }
    }

    fn spoil_number(&mut self, random: &mut Random) {
        let anywhere = random.below(self.words.len());
        match random.below(10) {
            0..=3 if !self.successors.is_empty() => {
                let place = random.pick(&self.successors);
                self.other_number(random, place);
            }
            4..=5 if !self.counts.is_empty() => {
                let place = random.pick(&self.counts);
                self.other_number(random, place);
            }
            6 => self.words[anywhere] = random.pick(&NO_NUMBERS).to_vec(),
            _ => self.other_number(random, anywhere),
        }
    }

    /// A number gone or one more. No place is known after this, but those where
    /// sections start.
    fn spoil_length(&mut self, random: &mut Random) {
        let anywhere = random.below(self.words.len());
        let word = self.words.remove(anywhere);
        let more = random.one_in(2);
        if more {
            self.words.splice(anywhere..anywhere, [word.clone(), word]);
        }
        let behind = self.starts.iter_mut().filter(|start| **start > anywhere);
        behind.for_each(|start| *start = if more { *start + 1 } else { *start - 1 });
    }

    /// Faults in numbers and in how many there are, none in most drafts.
    pub fn spoil(&mut self, random: &mut Random) {
        if random.one_in(4) {
            self.with_zeros(random);
        }
        while random.one_in(4) {
            self.spoil_number(random);
        }
        if random.one_in(20) {
            self.spoil_length(random);
        }
    }
}
