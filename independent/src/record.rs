//! Log records: twelve words, the member set among them, how many of them a
//! log holds, and the call that shows one record (01, "Log records"; 02,
//! Item 10).

const HEAD_WORDS: usize = 4;
const MEMBER_WORDS: usize = 8;
pub const RECORD_WORDS: usize = HEAD_WORDS + MEMBER_WORDS;
/// Every number a member set can name lies below this one.
pub const MEMBER_BITS: usize = MEMBER_WORDS * 32;

/// Member k is bit (k mod 32) of word (k div 32), bit 0 lowest.
#[derive(Clone, Copy, Debug, Default, PartialEq, Eq)]
pub struct Members([u32; MEMBER_WORDS]);

impl Members {
    pub fn put(&mut self, k: usize) {
        self.0[k / 32] |= 1 << (k % 32);
    }

    pub fn drop(&mut self, k: usize) {
        self.0[k / 32] &= !(1 << (k % 32));
    }

    pub fn has(&self, k: usize) -> bool {
        (self.0[k / 32] >> (k % 32)) & 1 == 1
    }

    /// Puts all of the other's members.
    pub fn join(&mut self, other: &Members) {
        other.numbers().into_iter().for_each(|k| self.put(k));
    }

    pub fn words(&self) -> &[u32] {
        &self.0
    }

    pub fn ones(&self) -> u32 {
        self.0.iter().map(|word| word.count_ones()).sum()
    }

    pub fn numbers(&self) -> Vec<usize> {
        (0..MEMBER_BITS).filter(|&k| self.has(k)).collect()
    }
}

/// The words of a record as they stand in a log, whether they make sense or not.
#[derive(Clone, Debug, PartialEq, Eq)]
pub struct Record {
    pub job: u32,
    pub side: u32,
    pub time: u32,
    pub count: u32,
    pub members: Members,
}

impl Record {
    pub fn words(&self) -> [u32; RECORD_WORDS] {
        let mut words = [0; RECORD_WORDS];
        words[..HEAD_WORDS].copy_from_slice(&[self.job, self.side, self.time, self.count]);
        words[HEAD_WORDS..].copy_from_slice(&self.members.0);
        words
    }

    pub fn from_words(words: &[u32]) -> Record {
        let mut members = Members::default();
        members.0.copy_from_slice(&words[HEAD_WORDS..RECORD_WORDS]);
        Record {
            job: words[0],
            side: words[1],
            time: words[2],
            count: words[3],
            members,
        }
    }
}

/// How many whole records a log holds, whatever the remainder.
pub fn room(log: &[u32]) -> usize {
    log.len() / RECORD_WORDS
}

/// There are words beyond the last whole record.
pub fn is_ragged(log: &[u32]) -> bool {
    log.len() % RECORD_WORDS != 0
}

/// The words of record k, or an empty part if the log ends before them.
pub fn shown(k: u64, log: &[u32]) -> &[u32] {
    match usize::try_from(k) {
        Ok(k) if k < room(log) => &log[k * RECORD_WORDS..][..RECORD_WORDS],
        _ => &[],
    }
}
