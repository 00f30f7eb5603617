// Made by `strip` from crates/lexical_parts/src/formatting/cut.rt. Edit that file, not this one.

//! The first characters of a text that is written in pieces, and how many they are.

use crate::parts::show::Show;
use core::fmt;

// A writer of the first characters of what is written to it.
struct Cut<'a, O> {
    out: &'a mut O,
    // How many more characters it writes.
    left: usize,
}

impl<O: fmt::Write> fmt::Write for Cut<'_, O> {
    #[inline]
    fn write_str(&mut self, text: &str) -> fmt::Result {
        let (end, left) = end_of_chars(text.as_bytes(), self.left);
        match text.get(..end) {
            Some(first) => {
                self.left = left;
                self.out.write_str(first)
            }
            None => Err(fmt::Error),
        }
    }
}

// Returns where the first `most` characters of the text end, and how many fewer than `most` it has.
#[inline]
fn end_of_chars(text: &[u8], most: usize) -> (usize, usize) {
    let mut left = most;
    for (index, byte) in text.iter().enumerate() {
        if is_char_start(*byte) {
            if left == 0 {
                return (index, 0);
            }
            left -= 1;
        }
    }
    (text.len(), left)
}

// Returns whether the byte is the first of a character.
#[inline]
fn is_char_start(byte: u8) -> bool {
    !(128..192).contains(&byte)
}

// Writes the first `most` characters of the text, and returns how many fewer than that it has.
#[inline]
pub(crate) fn write_first_chars<P: Show, O: fmt::Write>(
    part: P,
    most: usize,
    out: &mut O,
) -> Result<usize, fmt::Error> {
    let mut cut = Cut { out, left: most };
    part.write_pieces(&mut cut)?;
    let left = cut.left;
    // No effect at run time, but by this use it is known what the writer is now.
    let Cut { out, .. } = cut;
    let _ = &*out;
    Ok(left)
}

// A writer that writes nothing.
pub(crate) struct Nowhere;

impl fmt::Write for Nowhere {
    #[inline]
    fn write_str(&mut self, _text: &str) -> fmt::Result {
        Ok(())
    }
}
