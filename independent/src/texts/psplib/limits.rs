//! Lines with PSPLIB texts as long as a line may have them, and longer by one.

use crate::lines::{Call, LONGEST_TEXT};
use crate::reading::Layout::Psplib;
use crate::texts::lent::{call, Lengths};
use crate::texts::psplib::damaged::SMALL;

/// The text and blanks behind it, so long in all.
fn padded(text: &[u8], length: usize) -> Vec<u8> {
    let mut padded = text.to_vec();
    padded.resize(length, b' ');
    padded
}

/// The last capacity behind very many zeros.
fn zeros_before_a_number(digits: &str) -> Vec<u8> {
    let number = format!("{}{digits}", "0".repeat(100_000));
    SMALL[0].replace("   5\n", &number).into_bytes()
}

pub fn lines(text: &[u8], fit: Lengths) -> Vec<Vec<u8>> {
    let small = [2, 2, 2, 2, 1, 1];
    let calls: [Call; 5] = [
        call(Psplib, &padded(text, LONGEST_TEXT), 0, 158, fit),
        call(Psplib, &padded(text, LONGEST_TEXT + 1), 0, 158, fit),
        call(Psplib, &zeros_before_a_number("5\n"), 0, 7, small),
        call(Psplib, &zeros_before_a_number("5x\n"), 0, 7, small),
        call(Psplib, &zeros_before_a_number("10001"), 0, 7, small),
    ];
    let lines = calls.iter().map(|call| call.line().into_bytes());
    let byte = b"psplib 0 3 0 0 0 0 0 0 3 48 32 256".to_vec();
    lines.chain([byte]).collect()
}
