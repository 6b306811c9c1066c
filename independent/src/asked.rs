//! The call that the words of a line ask for.

use crate::joblist::{Supply, Times};
use crate::lines::{Call, LONGEST_JOB_LIST, LONGEST_LOG, LONGEST_PAIR_LIST, LONGEST_TEXT};
use crate::reading::{Layout, Lent, Request};
use crate::words::Words;
use crate::writing::Listing;

impl<'a, I: Iterator<Item = &'a [u8]>> Words<'a, I> {
    fn log(&mut self) -> Option<Vec<u32>> {
        self.list(LONGEST_LOG)
    }

    fn times(&mut self) -> Option<Times> {
        Some(Times {
            est: self.list(LONGEST_JOB_LIST)?,
            lct: self.list(LONGEST_JOB_LIST)?,
            dur: self.list(LONGEST_JOB_LIST)?,
        })
    }

    fn jobs(&mut self, cap: u32) -> Option<(Times, Supply)> {
        let times = self.times()?;
        let dem = self.list(LONGEST_JOB_LIST)?;
        Some((times, Supply { cap, dem }))
    }

    /// What the checker is told.
    fn claim(&mut self) -> Option<(Times, Supply, u64, Vec<u32>)> {
        let cap = self.short()?;
        let count = self.long()?;
        let (times, supply) = self.jobs(cap)?;
        Some((times, supply, count, self.log()?))
    }

    fn lent(&mut self) -> Option<Lent> {
        Some(Lent {
            est: self.list(LONGEST_JOB_LIST)?,
            lct: self.list(LONGEST_JOB_LIST)?,
            dur: self.list(LONGEST_JOB_LIST)?,
            dem: self.list(LONGEST_JOB_LIST)?,
            jobs: self.list(LONGEST_PAIR_LIST)?,
            successors: self.list(LONGEST_PAIR_LIST)?,
        })
    }

    fn reading(&mut self, layout: Layout) -> Option<Call> {
        let (resource, horizon) = (self.short()?, self.short()?);
        let lent = self.lent()?;
        let text = self.bytes(LONGEST_TEXT)?;
        let request = Request {
            layout,
            resource,
            horizon,
            text,
        };
        Some(Call::Read(request, lent))
    }

    fn writing(&mut self) -> Option<Call> {
        let listing = Listing {
            cap: self.short()?,
            dur: self.list(LONGEST_JOB_LIST)?,
            dem: self.list(LONGEST_JOB_LIST)?,
            jobs: self.list(LONGEST_PAIR_LIST)?,
            successors: self.list(LONGEST_PAIR_LIST)?,
        };
        Some(Call::Write(listing, self.bytes(LONGEST_TEXT)?))
    }

    pub fn call(&mut self) -> Option<Call> {
        match self.word()? {
            b"narrow" => {
                let cap = self.short()?;
                let (times, supply) = self.jobs(cap)?;
                Some(Call::Narrow(times, supply, self.log()?))
            }
            b"check" => {
                let (times, supply, count, log) = self.claim()?;
                Some(Call::Check(times, supply, count, log))
            }
            b"conflict" => {
                let (times, supply, count, log) = self.claim()?;
                Some(Call::Conflict(times, supply, count, log))
            }
            b"record" => Some(Call::Record(self.long()?, self.log()?)),
            b"overload" => Some(Call::Overload(self.times()?)),
            b"head" => Some(Call::Head(self.times()?)),
            b"patterson" => self.reading(Layout::Patterson),
            b"psplib" => self.reading(Layout::Psplib),
            b"write" => self.writing(),
            _ => None,
        }
    }
}
