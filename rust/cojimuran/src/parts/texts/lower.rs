// Made by `strip` from crates/lexical_parts/src/texts/lower.rt. Edit that file, not this one.

//! Parts in lowercase.

use crate::parts::part::Part;
use crate::parts::sealed::Sealed;
use crate::parts::show::Show;
use core::fmt;

/// A part in lowercase: its text with `A` to `Z` as `a` to `z`, and every other byte unchanged.
///
/// `Lower(PaddedDigits(16, 255u32, 4))` writes `00ff`. Its room is that of the part.
///
/// In a format string it is a text, and not a number: `{:04}` of `Lower(Hex(255u32))` writes `ff` and two spaces,
/// although `{:04}` of `Hex(255u32)` writes `00FF`.
///
/// ```
/// use cojimuran::{Lower, PaddedDigits, Part};
///
/// assert_eq!(Lower(PaddedDigits(16, 255u32, 4)).to_str(&mut [0; 64]), "00ff");
/// ```
#[derive(Clone, Copy, PartialEq, Eq, Hash, Debug)]
pub struct Lower<P>(pub P);

impl<P: Part> Part for Lower<P> {
    #[inline(always)]
    #[track_caller]
    fn room(self) -> usize {
        self.0.room()
    }

    #[inline(always)]
    #[track_caller]
    fn write_to(self, buffer: &mut [u8]) -> usize {
        let count = self.0.write_to(buffer);
        buffer[..count].make_ascii_lowercase();
        count
    }

    #[inline]
    fn text_len(self) -> Option<usize> {
        self.0.text_len()
    }

    #[inline(always)]
    #[track_caller]
    fn room_bound(self, sealed: Sealed) -> usize {
        self.0.room_bound(sealed)
    }

    #[inline(always)]
    #[track_caller]
    fn is_known_valid_and_utf8(self, sealed: Sealed) -> bool {
        self.0.is_known_valid_and_utf8(sealed)
    }
}

impl<P: Show> Show for Lower<P> {
    #[inline]
    fn is_showable(self) -> bool {
        self.0.is_showable()
    }

    #[inline(always)]
    #[track_caller]
    fn write_pieces<O: fmt::Write>(self, out: &mut O) -> fmt::Result {
        if !self.is_showable() {
            return Err(fmt::Error);
        }
        let mut lowering = Lowering { out };
        let result = self.0.write_pieces(&mut lowering);
        // No effect at run time, but by this use it is known what the writer is now.
        let Lowering { out } = lowering;
        let _ = &*out;
        result
    }
}

// A writer of what is written to it in lowercase.
struct Lowering<'a, O> {
    out: &'a mut O,
}

impl<O: fmt::Write> fmt::Write for Lowering<'_, O> {
    #[inline]
    fn write_str(&mut self, text: &str) -> fmt::Result {
        let mut start = 0;
        while start < text.len() {
            let piece = piece_at(text, start);
            if piece.is_empty() {
                return Err(fmt::Error);
            }
            self.out.write_str(Lower(piece).to_str(&mut [0; 64]))?;
            start += piece.len();
        }
        Ok(())
    }
}

// Returns a piece of the text, of at most 64 bytes: the longest that ends where a character ends.
#[inline]
fn piece_at(text: &str, start: usize) -> &str {
    let end = text.len().min(start.saturating_add(64));
    for fewer in 0..4 {
        if let Some(piece) = text.get(start..end.saturating_sub(fewer)) {
            return piece;
        }
    }
    ""
}
