//! That answers are written out before more input is waited for, and together
//! where their lines came together.

use crate::lines::answer_all;
use std::cell::RefCell;
use std::io::{BufWriter, Read, Result, Write};

/// The pieces that were written out.
#[derive(Default)]
struct Written(RefCell<Vec<Vec<u8>>>);

impl Write for &Written {
    fn write(&mut self, bytes: &[u8]) -> Result<usize> {
        self.0.borrow_mut().push(bytes.to_vec());
        Ok(bytes.len())
    }

    fn flush(&mut self) -> Result<()> {
        Ok(())
    }
}

/// An input that comes in parts; before each, so many pieces have to be written out.
struct Parts<'a>(Vec<(usize, &'a str)>, &'a Written);

impl Read for Parts<'_> {
    fn read(&mut self, room: &mut [u8]) -> Result<usize> {
        let (pieces, part) = self.0.remove(0);
        assert_eq!(self.1 .0.borrow().len(), pieces, "before {part:?}");
        room[..part.len()].copy_from_slice(part.as_bytes());
        Ok(part.len())
    }
}

#[test]
fn answers_are_written_out_before_more_is_waited_for() {
    let parts = vec![
        (0, "overload 0 0 0\n"),
        (1, "record 0 0\nx"),
        (2, "\n\nrecord "),
        (3, "0 0"),
        (3, ""),
        (4, ""),
    ];
    let written = Written::default();
    answer_all(Parts(parts, &written), BufWriter::new(&written)).unwrap();
    let pieces = [
        "none\n",
        "record 0\n",
        "unreadable\nunreadable\n",
        "record 0\n",
    ];
    assert_eq!(
        written.0.into_inner(),
        pieces.map(|piece| piece.as_bytes().to_vec())
    );
}
