//! Small PSPLIB texts drawn from a seed, with other text around the sections
//! and with faults: those of their draft, in headings and lines, in a byte.

use crate::lines::Call;
use crate::project::Project;
use crate::psplib::HEADINGS;
use crate::random::Random;
use crate::reading::Layout::Psplib;
use crate::texts::draft::Draft;
use crate::texts::drawn::{call_for, project};
use crate::texts::faults::with_odd_bytes;
use crate::texts::psplib::sections::PASSED_OVER;

/// Lines, and which of them are headings.
#[derive(Default)]
struct Lines {
    lines: Vec<Vec<u8>>,
    headings: Vec<usize>,
}

const OTHER_TEXT: [&str; 11] = [
    "",
    "*****",
    "file with basedata : x",
    "projects : 1",
    "horizon :  158",
    "RESOURCES",
    "  - nonrenewable : 3 N",
    "PROJECT INFORMATION:",
    "1 1 0",
    "a PRECEDENCE RELATIONS:",
    "\tREQUESTS/DURATIONS:",
];

const NAMES: [&str; 5] = ["", "jobnr. #modes", "R 1 R 2", "----", "1 1 2"];

impl Lines {
    fn push(&mut self, line: &str) {
        self.lines.push(line.as_bytes().to_vec());
    }

    fn other_text(&mut self, random: &mut Random) {
        while random.one_in(3) {
            self.push(random.pick(&OTHER_TEXT));
        }
    }

    fn heading(&mut self, random: &mut Random, heading: usize, behind: Vec<u8>) {
        let indent = random.pick(&["", "", " ", "  ", "       "]);
        let line = [indent.as_bytes(), HEADINGS[heading].as_bytes(), &behind];
        self.headings.push(self.lines.len());
        self.lines.push(line.concat());
    }

    fn section(&mut self, random: &mut Random, heading: usize, words: &[Vec<u8>]) {
        self.other_text(random);
        let parted: &[&str] = random.pick(&[&[" "], &[" ", "\n"], &["\t", "  ", "\r\n", "\n\n"]]);
        let rows = words.iter().flat_map(|word| {
            let blanks = random.pick(parted).as_bytes();
            [blanks.to_vec(), word.clone()]
        });
        let rows = rows.collect::<Vec<_>>().concat();
        if heading < 2 {
            let colon = [&[""][..], &[" : ", ":", "      :  ", " x :"]][heading];
            let number = [random.pick(colon).as_bytes(), &words.join(&b' ')].concat();
            let behind = random.pick(&["", "", "   R", "\r", " 7"]);
            self.heading(random, heading, [&number, behind.as_bytes()].concat());
            return;
        }
        let behind = random.pick(&["", "", "", " ", "x", " 1 1 1"]);
        self.heading(random, heading, behind.into());
        for _ in 0..PASSED_OVER[heading] {
            self.push(random.pick(&NAMES));
        }
        self.lines.push(rows);
    }

    fn spoil_heading(&mut self, random: &mut Random) {
        let place = random.pick(&self.headings);
        let other = random.pick(&self.headings);
        let before = random.pick(&["\t", "x ", " \t", "\0", "\r"]);
        let line = &mut self.lines[place];
        match random.below(6) {
            0 => self.lines.swap(place, other),
            1 => line.clear(),
            2 => line.splice(0..0, before.bytes()).for_each(drop),
            3 => line.truncate(random.below(line.len() + 1)),
            4 => line.make_ascii_lowercase(),
            _ => self.lines[other] = self.lines[place].clone(),
        }
    }

    /// No place of a heading is known after this.
    fn spoil_line(&mut self, random: &mut Random) {
        let place = random.below(self.lines.len());
        let line = self.lines.remove(place);
        match random.below(4) {
            0 => {}
            1 => self.lines.insert(random.below(self.lines.len() + 1), line),
            2 => self
                .lines
                .splice(place..place, [line.clone(), line])
                .for_each(drop),
            _ => {
                let more = random.pick(&OTHER_TEXT).as_bytes().to_vec();
                self.lines.splice(place..place, [more, line]).for_each(drop);
            }
        }
    }
}

fn text(random: &mut Random, project: &Project) -> Vec<u8> {
    let mut draft = Draft::psplib(project);
    draft.spoil(random);
    let mut lines = Lines::default();
    for (heading, words) in draft.sections().iter().enumerate() {
        lines.section(random, heading, words);
    }
    lines.other_text(random);
    if random.one_in(7) {
        lines.spoil_heading(random);
    }
    if random.one_in(8) {
        lines.spoil_line(random);
    }
    let ends = random.pick(&["\n", "\n", "\n", "\r\n"]).as_bytes();
    let mut text = lines.lines.join(ends);
    text.extend(random.pick(&["", "\n", "\n", "\r\n"]).as_bytes());
    if random.one_in(10) {
        with_odd_bytes(random, text)
    } else {
        text
    }
}

pub fn call(random: &mut Random) -> Call {
    let project = project(random);
    let text = text(random, &project);
    call_for(Psplib, random, &text)
}
