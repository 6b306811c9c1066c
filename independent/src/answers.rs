//! The answers of all calls, and the word and numbers each is written with
//! (01, "Answer table" and "Runs on the record"; 02, Items 1 to 3, 13 and 14).

use crate::text::Line;

#[derive(Clone, Copy, Debug, PartialEq, Eq)]
pub enum Answer {
    /// The number of records; of moves where there is no log.
    Settled(usize),
    /// The number of records or moves, and the job whose window is too short: the
    /// last of them closed it, or it was submitted so and there are none.
    Clash(usize, usize),
    /// The number of the refusal.
    Refused(u32),
    /// The number of records.
    Holds(usize),
    /// The place of the record, and the code.
    Rejected(usize, u32),
    None,
    /// The pair a and b.
    Overload(i64, i64),
    /// The capacity, and the number of pairs.
    Read(u32, usize),
    /// The number of bytes.
    Written(usize),
    /// The number of jobs.
    Marked(u32),
}

impl Answer {
    pub fn write(&self, line: Line) -> Line {
        match self {
            Answer::Settled(count) => line.word("settled").word(count),
            Answer::Clash(count, job) => line.word("clash").word(count).word(job),
            Answer::Refused(number) => line.word("refused").word(number),
            Answer::Holds(count) => line.word("holds").word(count),
            Answer::Rejected(place, code) => line.word("rejected").word(place).word(code),
            Answer::None => line.word("none"),
            Answer::Overload(a, b) => line.word("overload").word(a).word(b),
            Answer::Read(cap, pairs) => line.word("read").word(cap).word(pairs),
            Answer::Written(bytes) => line.word("written").word(bytes),
            Answer::Marked(jobs) => line.word("marked").word(jobs),
        }
    }
}
