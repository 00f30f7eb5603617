// Made by `strip` from crates/lexical_parts/src/layout/zero_padded.rt. Edit that file, not this one.

//! Numbers with leading zeros, up to at least a width.

use crate::parts::formatting::limited::{count_bytes, write_exactly};
use crate::parts::layout::fill::{insert_fill, write_copies};
use crate::parts::part::Part;
use crate::parts::sealed::Sealed;
use crate::parts::show::Show;
use core::fmt;

// Returns the length of the sign with which the text begins: 1 for `-` or `+`, and otherwise 0.
#[inline]
fn length_of_sign(text: &[u8]) -> usize {
    match text {
        [b'-' | b'+', ..] => 1,
        _ => 0,
    }
}

/// A part with zeros after its sign, up to the width: `ZeroPadded(Decimal(-42), 6)` writes `-00042`, as `{:06}` does.
///
/// A text that is longer than the width gets no zeros. The room is the width or that of the part, whichever is larger.
/// [`Padded`](super::super::Padded) has a width that the number must fit.
///
/// ```
/// use cojimuran::{Decimal, Part, ZeroPadded};
///
/// assert_eq!(ZeroPadded(Decimal(-42), 6).to_str(&mut [0; 64]), "-00042");
/// ```
#[derive(Clone, Copy, PartialEq, Eq, Hash, Debug)]
pub struct ZeroPadded<P>(
    /// The part, such as a number.
    pub P,
    /// The width, in bytes.
    pub usize,
);

impl<P: Part> Part for ZeroPadded<P> {
    #[inline(always)]
    #[track_caller]
    fn room(self) -> usize {
        self.0.room().max(self.1)
    }

    #[inline(always)]
    #[track_caller]
    fn write_to(self, buffer: &mut [u8]) -> usize {
        let count = self.0.write_to(buffer);
        let sign = length_of_sign(&buffer[..count]);
        let zeros = self.1.saturating_sub(count);
        insert_fill(b'0', zeros, count - sign, &mut buffer[sign..]);
        zeros + count
    }

    #[inline]
    fn text_len(self) -> Option<usize> {
        Some(self.0.text_len()?.max(self.1))
    }

    #[inline(always)]
    #[track_caller]
    fn is_known_valid_and_utf8(self, sealed: Sealed) -> bool {
        self.0.is_known_valid_and_utf8(sealed)
    }

    #[inline(always)]
    #[track_caller]
    fn room_bound(self, sealed: Sealed) -> usize {
        self.0.room_bound(sealed).max(self.1)
    }
}

impl<P: Show> Show for ZeroPadded<P> {
    #[inline]
    fn is_showable(self) -> bool {
        self.0.is_showable()
    }

    #[inline]
    fn write_pieces<O: fmt::Write>(self, out: &mut O) -> fmt::Result {
        if !self.is_showable() {
            return Err(fmt::Error);
        }
        let count = count_bytes(self.0)?;
        let mut adding = AddingZeros {
            out,
            zeros: self.1.saturating_sub(count),
        };
        write_exactly(self.0, count, &mut adding)?;
        // An empty text has taken no zeros, so they are written now.
        let zeros = adding.zeros;
        // By this use it is known what the writer is now.
        let AddingZeros { out, .. } = adding;
        write_copies(b'0', zeros, out)
    }
}

// A writer that adds zeros after the sign of the first piece that is not empty.
struct AddingZeros<'a, O> {
    out: &'a mut O,
    // How many zeros are still to be added.
    zeros: usize,
}

impl<O: fmt::Write> fmt::Write for AddingZeros<'_, O> {
    #[inline]
    fn write_str(&mut self, text: &str) -> fmt::Result {
        if text.is_empty() {
            return Ok(());
        }
        let sign = length_of_sign(text.as_bytes());
        let zeros = self.zeros;
        self.zeros = 0;
        match (text.get(..sign), text.get(sign..)) {
            (Some(sign), Some(number)) => {
                self.out.write_str(sign)?;
                write_copies(b'0', zeros, self.out)?;
                self.out.write_str(number)
            }
            _ => Err(fmt::Error),
        }
    }
}
