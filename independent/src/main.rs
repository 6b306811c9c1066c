//! The second program of the bench desk, written from the rules alone and as
//! plainly as its sentences. README.md says how it is used.

mod answers;
mod asked;
mod calls;
mod cases;
mod commands;
mod conflict;
mod head;
mod instances;
mod joblist;
mod jobshops;
mod layouts;
mod lines;
mod make;
mod marks;
mod names;
mod overload;
mod patterson;
mod project;
mod psplib;
mod random;
mod reading;
mod reasons;
mod record;
mod replay;
mod rounds;
mod text;
mod texts;
mod timetable;
mod tokens;
mod words;
mod writing;
mod written;

#[cfg(test)]
mod tests;

use std::process::ExitCode;

fn main() -> ExitCode {
    let words: Vec<String> = std::env::args().skip(1).collect();
    let words: Vec<&str> = words.iter().map(String::as_str).collect();
    match commands::run(&words) {
        Ok(()) => ExitCode::SUCCESS,
        Err(why) => {
            eprintln!("{why}");
            ExitCode::from(2)
        }
    }
}
