//! Calls as lines, one call to a line: reading, writing and answering them.
//! README.md says what a readable line is, `asked.rs` reads its words.

use crate::answers::Answer;
use crate::conflict::conflict;
use crate::head::head;
use crate::joblist::{Supply, Times};
use crate::overload::overload;
use crate::reading::{self, Lent, Request};
use crate::record::shown;
use crate::replay::check;
use crate::text::Line;
use crate::timetable::narrow;
use crate::words::Words;
use crate::writing::{self, Listing};
use std::io::{BufRead, BufReader, Read, Write};

pub const LONGEST_JOB_LIST: usize = 1_200;
pub const LONGEST_LOG: usize = 131_072;
pub const LONGEST_PAIR_LIST: usize = 70_000;
/// Of a buffer too.
pub const LONGEST_TEXT: usize = 524_288;

#[derive(Clone, Debug, PartialEq, Eq)]
pub enum Call {
    Narrow(Times, Supply, Vec<u32>),
    Check(Times, Supply, u64, Vec<u32>),
    Conflict(Times, Supply, u64, Vec<u32>),
    Record(u64, Vec<u32>),
    Overload(Times),
    Head(Times),
    Read(Request, Lent),
    Write(Listing, Vec<u8>),
}

/// The call a line (without its line feed) makes, if it can be read.
pub fn read(line: &[u8]) -> Option<Call> {
    let mut words = Words(line.split(|&byte| byte == b' '));
    let call = words.call()?;
    match words.word() {
        Some(_) => None,
        None => Some(call),
    }
}

fn with_times(line: Line, times: &Times) -> Line {
    line.list(&times.est).list(&times.lct).list(&times.dur)
}

fn with_lent(line: Line, lent: &Lent) -> Line {
    lent.lists()
        .into_iter()
        .fold(line, |line, list| line.list(list))
}

fn with_windows(line: Line, times: &Times) -> Line {
    line.list(&times.est).list(&times.lct)
}

impl Call {
    /// The line that makes this call.
    pub fn line(&self) -> String {
        let line = Line::default();
        let line = match self {
            Call::Narrow(times, supply, log) => {
                let line = line.word("narrow").word(supply.cap);
                with_times(line, times).list(&supply.dem).list(log)
            }
            Call::Check(times, supply, count, log) => {
                let line = line.word("check").word(supply.cap).word(count);
                with_times(line, times).list(&supply.dem).list(log)
            }
            Call::Conflict(times, supply, count, log) => {
                let line = line.word("conflict").word(supply.cap).word(count);
                with_times(line, times).list(&supply.dem).list(log)
            }
            Call::Record(k, log) => line.word("record").word(k).list(log),
            Call::Overload(times) => with_times(line.word("overload"), times),
            Call::Head(times) => with_times(line.word("head"), times),
            Call::Read(request, lent) => {
                let line = line.word(request.layout.name()).word(request.resource);
                with_lent(line.word(request.horizon), lent).list(&request.text)
            }
            Call::Write(listing, buffer) => {
                let line = line.word("write").word(listing.cap);
                let line = line.list(&listing.dur).list(&listing.dem);
                let line = line.list(&listing.jobs).list(&listing.successors);
                line.list(buffer)
            }
        };
        line.text()
    }

    /// Makes the call: the answer, then the lent lists as they are afterwards.
    fn answered(self) -> Line {
        let said = |answer: Answer| answer.write(Line::default());
        match self {
            Call::Narrow(mut times, supply, mut log) => {
                let answer = narrow(&mut times, &supply, &mut log);
                with_windows(said(answer), &times).list(&log)
            }
            Call::Check(mut times, supply, count, log) => {
                let answer = check(&mut times, &supply, count, &log);
                with_windows(said(answer), &times)
            }
            Call::Conflict(times, supply, count, log) => {
                let (answer, marked) = conflict(&times, &supply, count, &log);
                said(answer).list(marked.words())
            }
            Call::Record(k, log) => Line::default().word("record").list(shown(k, &log)),
            Call::Overload(times) => said(overload(&times)),
            Call::Head(mut times) => {
                let answer = head(&mut times);
                with_windows(said(answer), &times)
            }
            Call::Read(request, mut lent) => {
                let answer = reading::read(&request, &mut lent);
                with_lent(said(answer), &lent)
            }
            Call::Write(listing, mut buffer) => {
                let answer = writing::write(&listing, &mut buffer);
                said(answer).list(&buffer)
            }
        }
    }
}

pub fn answer(line: &[u8]) -> String {
    match read(line) {
        Some(call) => call.answered().text(),
        None => "unreadable".to_string(),
    }
}

/// Answers every line of the input; the last one may lack its line feed. An answer
/// is written out before more input is waited for; lines that are there already
/// are answered first.
pub fn answer_all(input: impl Read, mut output: impl Write) -> std::io::Result<()> {
    let mut input = BufReader::new(input);
    let mut line = Vec::new();
    while input.read_until(b'\n', &mut line)? > 0 {
        if line.last() == Some(&b'\n') {
            line.pop();
        }
        writeln!(output, "{}", answer(&line))?;
        line.clear();
        if !input.buffer().contains(&b'\n') {
            output.flush()?;
        }
    }
    Ok(())
}
