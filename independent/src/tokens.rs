//! The numbers of a text (01, "Library layouts"), whichever its layout: tokens
//! parted by blanks, each read as what has to come next, or refused by 30, 31
//! or 32 where it is something else.

use crate::joblist::MOST_DEMAND;

pub const MOST_RESOURCES: usize = 8;

fn is_blank(byte: &u8) -> bool {
    matches!(byte, b' ' | b'\t' | b'\r' | b'\n')
}

/// The value of a token that is all digits. One of 2^64 or more counts as
/// 2^64 - 1, which is above every limit too.
fn value(token: &[u8]) -> Result<u64, u32> {
    let mut value: u64 = 0;
    for byte in token {
        if !byte.is_ascii_digit() {
            return Err(30);
        }
        let digit = u64::from(byte - b'0');
        value = value.saturating_mul(10).saturating_add(digit);
    }
    Ok(value)
}

/// The tokens that are still to be read.
pub struct Tokens<'a>(Box<dyn Iterator<Item = &'a [u8]> + 'a>);

impl<'a> Tokens<'a> {
    pub fn of(text: &'a [u8]) -> Tokens<'a> {
        let tokens = text.split(is_blank).filter(|token| !token.is_empty());
        Tokens(Box::new(tokens))
    }

    pub fn of_lines(lines: &'a [&'a [u8]]) -> Tokens<'a> {
        Tokens(Box::new(lines.iter().flat_map(|line| Tokens::of(line).0)))
    }

    pub fn is_at_end(&mut self) -> bool {
        self.0.next().is_none()
    }

    fn number(&mut self) -> Result<u64, u32> {
        value(self.0.next().ok_or(30_u32)?)
    }

    pub fn at_most(&mut self, limit: u32) -> Result<u32, u32> {
        match u32::try_from(self.number()?) {
            Ok(number) if number <= limit => Ok(number),
            _ => Err(31),
        }
    }

    pub fn count(&mut self, limit: usize) -> Result<usize, u32> {
        Ok(self.at_most(limit as u32)? as usize)
    }

    /// A number that can only be this one: any other counts as none.
    pub fn exactly(&mut self, wanted: usize) -> Result<(), u32> {
        match self.number()? {
            number if number == wanted as u64 => Ok(()),
            _ => Err(30),
        }
    }

    /// A number for each resource: demands or capacities.
    pub fn demands(&mut self, resources: usize) -> Result<Vec<u32>, u32> {
        (0..resources).map(|_| self.at_most(MOST_DEMAND)).collect()
    }

    /// The text numbers jobs from 1, the project from 0.
    fn successor(&mut self, jobs: usize) -> Result<usize, u32> {
        match self.number()? {
            number if 1 <= number && number <= jobs as u64 => Ok(number as usize - 1),
            _ => Err(32),
        }
    }

    /// The successor count and the successors.
    pub fn successors(&mut self, jobs: usize) -> Result<Vec<usize>, u32> {
        let count = self.count(jobs)?;
        (0..count).map(|_| self.successor(jobs)).collect()
    }
}
