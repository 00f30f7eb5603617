// Made by `strip` from crates/lexical_parts/src/formatting/limited.rt. Edit that file, not this one.

//! The length of a text that is written in pieces.

use crate::parts::formatting::cut::Nowhere;
use crate::parts::show::Show;
use core::fmt;

// A writer that passes on a limited number of bytes.
struct Limited<'a, O> {
    out: &'a mut O,
    // How many more bytes it passes on.
    left: usize,
}

impl<O: fmt::Write> fmt::Write for Limited<'_, O> {
    #[inline]
    fn write_str(&mut self, text: &str) -> fmt::Result {
        match self.left.checked_sub(text.len()) {
            Some(left) => {
                self.left = left;
                self.out.write_str(text)
            }
            None => Err(fmt::Error),
        }
    }
}

// Returns the length of the text. If the part does not know it, the text is written to count its bytes. No clause says
// that the count is right: `write_exactly` compares it with what is then written.
#[inline]
pub(crate) fn count_bytes<P: Show>(part: P) -> Result<usize, fmt::Error> {
    if let Some(count) = part.text_len() {
        return Ok(count);
    }
    let mut nowhere = Nowhere;
    let mut limited = Limited {
        out: &mut nowhere,
        left: usize::MAX,
    };
    part.write_pieces(&mut limited)?;
    Ok(usize::MAX.saturating_sub(limited.left))
}

// Writes a text of this length, or returns an error if the part has another one.
#[inline]
pub(crate) fn write_exactly<P: Show, O: fmt::Write>(
    part: P,
    count: usize,
    out: &mut O,
) -> fmt::Result {
    let mut limited = Limited { out, left: count };
    part.write_pieces(&mut limited)?;
    let left = limited.left;
    // No effect at run time, but by this use it is known what the writer is now.
    let Limited { out, .. } = limited;
    let _ = &*out;
    if left == 0 { Ok(()) } else { Err(fmt::Error) }
}
