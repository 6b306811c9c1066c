//! Lines with texts and lists as long as a line may have them, and longer by
//! one; numbers of very many digits; a byte that is none.

use crate::lines::{Call, LONGEST_JOB_LIST, LONGEST_PAIR_LIST, LONGEST_TEXT};
use crate::reading::Layout::Patterson;
use crate::texts::lent::{call, exact, Lengths};

/// The text with blanks before and behind it, so long in all.
fn padded(text: &[u8], length: usize) -> Vec<u8> {
    let room = length.saturating_sub(text.len());
    let before = vec![b' '; room / 2];
    let behind = vec![b'\n'; room - room / 2];
    [&before, text, &behind].concat()
}

/// One job whose duration has very many digits.
fn one_job(digit: u8, last: &str) -> Vec<u8> {
    let digits = vec![digit; 500_000];
    [b"1 1 5 ", &digits[..], last.as_bytes(), b" 2 0"].concat()
}

fn with_lengths(text: &[u8], fit: Lengths, changes: &[(usize, usize)]) -> Call {
    let mut lengths = fit;
    for &(list, length) in changes {
        lengths[list] = length;
    }
    call(Patterson, text, 0, 1_000_000, lengths)
}

fn longest(text: &[u8], fit: Lengths) -> Vec<Call> {
    let pairs = LONGEST_PAIR_LIST;
    let jobs = LONGEST_JOB_LIST;
    let full = padded(text, LONGEST_TEXT);
    let left_over = [&padded(text, LONGEST_TEXT - 1)[..], b"0"].concat();
    vec![
        call(Patterson, &full, 0, 158, fit),
        call(Patterson, &left_over, 0, 158, fit),
        call(Patterson, &one_job(b'0', "3"), 0, 3, exact(1, 0)),
        call(Patterson, &one_job(b'0', "3"), 0, 2, exact(1, 0)),
        call(Patterson, &one_job(b'9', ""), 0, 3, exact(1, 0)),
        call(Patterson, &one_job(b'0', "x"), 0, 3, exact(1, 0)),
        call(Patterson, &one_job(b'9', "x"), 0, 3, exact(1, 0)),
        with_lengths(text, fit, &[(4, pairs), (5, pairs)]),
        with_lengths(text, fit, &[(0, jobs)]),
        with_lengths(text, fit, &[(1, jobs), (2, jobs), (3, jobs)]),
    ]
}

/// The same calls with one list or the text too long by one.
fn too_long(text: &[u8], fit: Lengths) -> Vec<Call> {
    let (jobs, pairs) = (LONGEST_JOB_LIST + 1, LONGEST_PAIR_LIST + 1);
    let lists = exact(jobs, pairs).into_iter().enumerate();
    let mut calls: Vec<Call> = lists
        .map(|change| with_lengths(text, fit, &[change]))
        .collect();
    let text_too_long = padded(text, LONGEST_TEXT + 1);
    calls.push(call(Patterson, &text_too_long, 0, 158, fit));
    calls
}

pub fn lines(text: &[u8], fit: Lengths) -> Vec<Vec<u8>> {
    let calls = [longest(text, fit), too_long(text, fit)].concat();
    let mut lines: Vec<Vec<u8>> = calls.iter().map(|call| call.line().into_bytes()).collect();
    lines.push(b"patterson 0 3 0 0 0 0 0 0 3 48 32 256".to_vec());
    lines
}
