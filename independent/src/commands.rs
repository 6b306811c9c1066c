//! What the program does for each of its commands.

use crate::lines::Call;
use crate::{calls, cases, instances, jobshops, layouts, lines, make, marks, names, texts};
use std::io::{self, BufWriter, Write};
use std::path::Path;
use std::str::FromStr;

pub const USAGE: &str = "usage:
  independent answer                           answers each line of the input
  independent cases                            the runs on the record
  independent calls SEED COUNT                 calls of every full size, then COUNT from a seed
  independent instance FILE RESOURCE HORIZON   calls for a resource (from 0) of an instance
  independent jobshop FILE HORIZON             calls for the machines of a job-shop
  independent chain FILE                       the longest chain of either kind of file
  independent make SEED JOBS LAYOUT            an instance of 30, 60, 90 or 120 jobs as rcp or sm
  independent instance-calls DIR               calls for the files of a folder and made instances
  independent names DIR                        how many names shorter reasons spare, by families of lists
  independent marks                            how many jobs a clash marks, and how many of them it needs
  independent text-calls DIR SEED COUNT        calls of both readers and the writer; COUNT Patterson texts are drawn";

fn number<T: FromStr>(word: &str) -> Result<T, String> {
    word.parse().map_err(|_| format!("not a number: {word:?}"))
}

fn text_of(file: &str) -> Result<String, String> {
    instances::file_text(Path::new(file))
}

/// The published instance in both layouts.
fn published(dir: &str) -> Result<[String; 2], String> {
    let [rcp, sm] = texts::PUBLISHED.map(|name| text_of(&format!("{dir}/{name}")));
    Ok([rcp?, sm?])
}

/// Standard output, where a reader that has gone is an error like any other.
struct Output(BufWriter<io::StdoutLock<'static>>);

impl Output {
    fn write(&mut self, bytes: &[u8]) -> Result<(), String> {
        self.0.write_all(bytes).map_err(|why| why.to_string())
    }

    fn line(&mut self, line: &[u8]) -> Result<(), String> {
        self.write(line)?;
        self.write(b"\n")
    }

    fn lines(&mut self, lines: impl IntoIterator<Item = impl AsRef<[u8]>>) -> Result<(), String> {
        let mut lines = lines.into_iter();
        lines.try_for_each(|line| self.line(line.as_ref()))
    }

    fn calls(&mut self, calls: Vec<Call>) -> Result<(), String> {
        self.lines(calls.iter().map(Call::line))
    }
}

pub fn run(words: &[&str]) -> Result<(), String> {
    let mut output = Output(BufWriter::new(io::stdout().lock()));
    match *words {
        ["answer"] => {
            lines::answer_all(io::stdin().lock(), &mut output.0).map_err(|why| why.to_string())?;
        }
        ["cases"] => output.lines(cases::lines())?,
        ["calls", seed, count] => output.lines(calls::lines(number(seed)?, number(count)?))?,
        ["instance", file, resource, horizon] => {
            let project = layouts::instance(&text_of(file)?)?;
            let (resource, horizon) = (number(resource)?, number(horizon)?);
            output.calls(instances::resource_calls(&project, resource, horizon)?)?;
        }
        ["jobshop", file, horizon] => {
            let project = layouts::jobshop(&text_of(file)?)?;
            output.calls(jobshops::machine_calls(&project, number(horizon)?)?)?;
        }
        ["chain", file] => {
            let chain = layouts::any(&text_of(file)?)?.longest_chain()?;
            output.line(chain.to_string().as_bytes())?;
        }
        ["make", seed, jobs, layout] => {
            output.write(make::text(number(seed)?, number(jobs)?, layout)?.as_bytes())?;
        }
        ["instance-calls", dir] => {
            instances::folder_calls(Path::new(dir), |calls| output.calls(calls))?;
        }
        ["names", dir] => output.lines(names::lines(Path::new(dir))?)?,
        ["marks"] => output.lines(marks::lines()?)?,
        ["text-calls", dir, seed, count] => {
            let [rcp, sm] = published(dir)?;
            let (seed, count) = (number(seed)?, number(count)?);
            let published = [rcp.as_bytes(), sm.as_bytes()];
            output.lines(texts::lines(published, seed, count)?)?;
        }
        _ => return Err(USAGE.to_string()),
    }
    output.0.flush().map_err(|why| why.to_string())
}
