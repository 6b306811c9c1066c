//! The words of a line, and the numbers and lists they make. README.md says
//! what a readable line is.

/// The value of a word of decimal digits, if it is at most `most`.
fn number(word: &[u8], most: u64) -> Option<u64> {
    let mut value: u128 = 0;
    for byte in word {
        if !byte.is_ascii_digit() {
            return None;
        }
        value = value * 10 + u128::from(byte - b'0');
        if value > u128::from(most) {
            return None;
        }
    }
    if word.is_empty() {
        return None;
    }
    u64::try_from(value).ok()
}

pub struct Words<'a, I: Iterator<Item = &'a [u8]>>(pub I);

impl<'a, I: Iterator<Item = &'a [u8]>> Words<'a, I> {
    pub fn word(&mut self) -> Option<&'a [u8]> {
        self.0.next()
    }

    pub fn long(&mut self) -> Option<u64> {
        number(self.word()?, u64::MAX)
    }

    pub fn short(&mut self) -> Option<u32> {
        let value = number(self.word()?, u64::from(u32::MAX))?;
        u32::try_from(value).ok()
    }

    fn byte(&mut self) -> Option<u8> {
        let value = number(self.word()?, u64::from(u8::MAX))?;
        u8::try_from(value).ok()
    }

    pub fn list(&mut self, longest: usize) -> Option<Vec<u32>> {
        let length = number(self.word()?, longest as u64)?;
        (0..length).map(|_| self.short()).collect()
    }

    pub fn bytes(&mut self, longest: usize) -> Option<Vec<u8>> {
        let length = number(self.word()?, longest as u64)?;
        (0..length).map(|_| self.byte()).collect()
    }
}
