//! The text of a project in PSPLIB's layout, with no more lines than it has to
//! have.

use crate::project::Project;
use crate::psplib::HEADINGS;
use crate::texts::draft::Draft;

/// How many lines behind each heading are not looked at.
pub const PASSED_OVER: [usize; 5] = [0, 0, 1, 2, 1];

/// The line of a heading that stands before a number, or alone.
fn heading_line(heading: usize, number: &[u8]) -> Vec<u8> {
    let between = ["  ", "  :  ", "", "", ""][heading];
    [HEADINGS[heading].as_bytes(), between.as_bytes(), number].concat()
}

/// All rows of a section stand on one line.
pub fn plain(project: &Project) -> Vec<u8> {
    let mut lines: Vec<Vec<u8>> = Vec::new();
    for (heading, words) in Draft::psplib(project).sections().iter().enumerate() {
        if heading < 2 {
            lines.push(heading_line(heading, &words.concat()));
            continue;
        }
        lines.push(heading_line(heading, b""));
        lines.extend(vec![b"-".to_vec(); PASSED_OVER[heading]]);
        lines.push(words.join(&b' '));
    }
    [lines.join(&b'\n'), b"\n".to_vec()].concat()
}
