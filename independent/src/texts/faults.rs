//! A project as the bytes of a Patterson text, its numbers parted by any blanks,
//! and with faults: those of its draft, and in a byte.

use crate::project::Project;
use crate::random::Random;
use crate::texts::draft::Draft;

const LEFT_OVER: [&[u8]; 6] = [b" 0", b" x", b"\x00", b"\n\x1a", b"\n.", b"7"];

const ODD_BYTES: [u8; 14] = [
    0, 0x0b, 0x0c, 0x1a, b'+', b'-', b'.', b'x', b'/', b':', 0x80, 0x85, 0xa0, 0xff,
];

fn joined(draft: &Draft, random: &mut Random) -> Vec<u8> {
    let any: &[&str] = &[" ", "\t", "\r\n", "   ", "\n\n", "\r", "\n"];
    let parted: &[&str] = random.pick(&[&[" "], &[" ", "\n"], any]);
    let mut text = random.pick(&["", "", " ", "\r\n\t "]).as_bytes().to_vec();
    for (place, word) in draft.words.iter().enumerate() {
        if place > 0 {
            text.extend(random.pick(parted).as_bytes());
        }
        text.extend(word);
    }
    text.extend(random.pick(&["", "\n", "\n", "\t \r\n "]).as_bytes());
    text
}

pub fn with_odd_bytes(random: &mut Random, mut text: Vec<u8>) -> Vec<u8> {
    let place = random.below(text.len() + 1);
    match random.below(8) {
        0..=1 => text.insert(place, random.pick(&ODD_BYTES)),
        2 => {
            let byte = text.get_mut(place);
            byte.into_iter()
                .for_each(|byte| *byte = random.pick(&ODD_BYTES));
        }
        3 => {
            text.splice(0..0, *b"\xef\xbb\xbf");
        }
        4 => text.extend(random.pick(&LEFT_OVER)),
        5 => text.truncate(place),
        6 => {
            text.truncate(random.below(4));
            text.fill(b' ');
        }
        _ => text.insert(place, random.pick(b" \t\r\n")),
    }
    text
}

pub fn text(random: &mut Random, project: &Project) -> Vec<u8> {
    let mut draft = Draft::patterson(project);
    draft.spoil(random);
    let text = joined(&draft, random);
    if random.one_in(8) {
        with_odd_bytes(random, text)
    } else {
        text
    }
}
