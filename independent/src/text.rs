//! A line that is being written: words parted by one space, a list as its
//! length and then its numbers.

use std::fmt::{Display, Write};

#[derive(Default)]
pub struct Line(String);

impl Line {
    pub fn word(mut self, word: impl Display) -> Line {
        if !self.0.is_empty() {
            self.0.push(' ');
        }
        write!(self.0, "{word}").expect("a string takes every word");
        self
    }

    pub fn numbers<T: Display>(self, numbers: &[T]) -> Line {
        numbers.iter().fold(self, Line::word)
    }

    pub fn list<T: Display>(self, numbers: &[T]) -> Line {
        self.word(numbers.len()).numbers(numbers)
    }

    pub fn text(self) -> String {
        self.0
    }
}
