// Made by `strip` from crates/lexical_parts/src/texts/hex_bytes.rt. Edit that file, not this one.

//! Bytes in radix 16.

use crate::parts::layout::joined::{separator_before, write_next};
use crate::parts::part::Part;
use crate::parts::sealed::Sealed;
use crate::parts::show::{MOST_IN_ONE_PIECE, Show, write_in_one_piece};
use crate::tables::get_table;
use core::fmt;

// The two digits of a byte in radix 16.
#[derive(Clone, Copy)]
struct HexByte(u8);

impl Part for HexByte {
    #[inline(always)]
    #[track_caller]
    fn room(self) -> usize {
        2
    }

    #[inline(always)]
    #[track_caller]
    fn write_to(self, buffer: &mut [u8]) -> usize {
        let table = get_table(16);
        let index = 2 * usize::from(self.0);
        // Both characters are read first, so a compiler moves them as one number.
        let (first, second) = (table[index], table[index + 1]);
        // rustc tests the end of these bytes once.
        let written = &mut buffer[..2];
        written[1] = second;
        written[0] = first;
        2
    }
}

/// The bytes of a slice in radix 16, each in two digits, with a separator between adjacent bytes.
///
/// `HexBytes(&[1, 255], "")` writes `01FF`, and `HexBytes(&[1, 255], ":")` writes `01:FF`. The room is the length of
/// the text.
///
/// ```
/// use cojimuran::{HexBytes, Part};
///
/// assert_eq!(HexBytes(&[1, 255], "").to_str(&mut [0; 64]), "01FF");
/// assert_eq!(HexBytes(&[1, 255], ":").to_str(&mut [0; 64]), "01:FF");
/// ```
#[derive(Clone, Copy, PartialEq, Eq, Hash, Debug)]
pub struct HexBytes<'a>(
    /// The bytes.
    pub &'a [u8],
    /// The separator.
    pub &'a str,
);

impl Part for HexBytes<'_> {
    #[inline(always)]
    #[track_caller]
    fn room(self) -> usize {
        let separators = self.0.len().saturating_sub(1);
        let digits = self.0.len().saturating_mul(2);
        digits.saturating_add(separators.saturating_mul(self.1.len()))
    }

    #[inline(always)]
    #[track_caller]
    fn write_to(self, buffer: &mut [u8]) -> usize {
        // The loop of `Joined`, whose slice contains the parts: here each byte becomes one.
        let mut count = 0;
        for (index, byte) in self.0.iter().enumerate() {
            count += write_next(index, self.1, HexByte(*byte), &mut buffer[count..]);
        }
        count
    }

    #[inline(always)]
    #[track_caller]
    fn text_len(self) -> Option<usize> {
        let digits = self.0.len().checked_mul(2)?;
        let separators = self.0.len().saturating_sub(1);
        digits.checked_add(separators.checked_mul(self.1.len())?)
    }

    #[inline(always)]
    #[track_caller]
    fn is_known_valid_and_utf8(self, _sealed: Sealed) -> bool {
        true
    }
}

impl Show for HexBytes<'_> {
    #[inline(always)]
    #[track_caller]
    fn is_showable(self) -> bool {
        true
    }

    #[inline(always)]
    #[track_caller]
    fn write_pieces<O: fmt::Write>(self, out: &mut O) -> fmt::Result {
        if self.room() <= MOST_IN_ONE_PIECE {
            return write_in_one_piece(self, out);
        }
        for (index, byte) in self.0.iter().enumerate() {
            out.write_str(separator_before(index, self.1))?;
            out.write_str(HexByte(*byte).to_str(&mut [0; 2]))?;
        }
        Ok(())
    }
}
