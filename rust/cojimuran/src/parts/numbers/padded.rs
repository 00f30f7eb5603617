// Made by `strip` from crates/lexical_parts/src/numbers/padded.rt. Edit that file, not this one.

//! Numbers with leading zeros, up to a fixed width.

use crate::num::limits::is_radix;
use crate::parts::layout::fill::write_copies;
use crate::parts::numbers::compact::CompactDigits;
use crate::parts::part::Part;
use crate::parts::sealed::Sealed;
use crate::parts::show::{Show, write_in_one_piece};
use crate::write_integer::digit_count::DigitCount;
use crate::write_integer::padded::{fits_decimal_width, write_padded};
use crate::write_integer::radix::Radix;
use core::fmt;

// The digits of the longest number.
pub(crate) const MOST_DIGITS: usize = 64;

// Returns whether the number has so few bits that it is below `radix^width`. To count its digits costs more, and is not
// needed if the radix is a power of two.
#[inline(always)]
#[track_caller]
fn has_few_bits(number: u64, radix: u32, width: usize) -> bool {
    if width >= 64 {
        return true;
    }
    let bits = radix.ilog2() as usize * width;
    bits >= 64 || number >> bits == 0
}

/// The digits of an unsigned number in a radix from 2 to 36, with leading zeros up to the width: `PaddedDigits(16, 1u8,
/// 2)` writes `01`.
///
/// The number must be below `radix.pow(width)`, and a literal needs a type. The room is the width. `room` and
/// `text_len` do not check that the number fits.
///
/// If the radix is a constant where you call `to_str`, your program has only the code of that radix. If it is known
/// only at run time, your program has [the code of every radix](crate::costs#a-radix-that-is-known-only-at-run-time),
/// which is 39 KB for a `u8` and 80 KB for a `u64`. `write_pieces` and `{}` add 4 to 9 KB instead, because they divide
/// once for each digit.
///
/// ```
/// use cojimuran::{PaddedDigits, Part};
///
/// assert_eq!(PaddedDigits(16, 1u8, 2).to_str(&mut [0; 64]), "01");
/// ```
#[derive(Clone, Copy, PartialEq, Eq, Hash, Debug)]
pub struct PaddedDigits<T>(
    /// The radix.
    pub u32,
    /// The number.
    pub T,
    /// The width, in digits.
    pub usize,
);

impl<T: DigitCount + Radix> Part for PaddedDigits<T> {
    #[inline(always)]
    #[track_caller]
    fn room(self) -> usize {
        self.2
    }

    #[inline(always)]
    #[track_caller]
    fn write_to(self, buffer: &mut [u8]) -> usize {
        write_padded(self.1, self.0, &mut buffer[..self.2]);
        // `write_padded` returns the same number, but a constant width is known without its result,
        // and with it the position of the next part.
        self.2
    }

    #[inline(always)]
    #[track_caller]
    fn text_len(self) -> Option<usize> {
        Some(self.2)
    }

    #[inline(always)]
    #[track_caller]
    fn is_known_valid_and_utf8(self, sealed: Sealed) -> bool {
        if self.0 == 10 {
            return Padded(self.1, self.2).is_known_valid_and_utf8(sealed);
        }
        is_radix(u64::from(self.0))
            && (has_few_bits(self.1.as_u64(), self.0, self.2)
                || self.1.digit_count(self.0) <= self.2)
    }
}

impl<T: DigitCount + Radix> Show for PaddedDigits<T> {
    #[inline(always)]
    #[track_caller]
    fn is_showable(self) -> bool {
        self.is_known_valid_and_utf8(Sealed)
    }

    #[inline(always)]
    #[track_caller]
    fn write_pieces<O: fmt::Write>(self, out: &mut O) -> fmt::Result {
        let mut buffer = [0; MOST_DIGITS];
        let (zeros, digits) = self.zeros_and_digits(&mut buffer)?;
        write_copies(b'0', zeros, out)?;
        out.write_str(digits)
    }
}

impl<T: DigitCount + Radix> PaddedDigits<T> {
    // Returns how many zeros the text begins with, and the digits after them. It is an error if the radix is not from 2
    // to 36, or if the number does not fit in the width.
    #[inline(always)]
    #[track_caller]
    pub(crate) fn zeros_and_digits(
        self,
        buffer: &mut [u8; MOST_DIGITS],
    ) -> Result<(usize, &str), fmt::Error> {
        if !self.is_known_valid_and_utf8(Sealed) {
            return Err(fmt::Error);
        }
        if self.2 == 0 {
            // The number is 0, and its digit does not fit.
            return Ok((0, ""));
        }
        let digits = CompactDigits(self.0, self.1.as_u64()).to_str(buffer);
        Ok((self.2 - digits.len(), digits))
    }
}

/// An unsigned number in decimal, with leading zeros up to the width: `Padded(3u8, 2)` writes `03`.
///
/// The number must be below `10.pow(width)`, and a literal needs a type. The room is the width. `room` and `text_len`
/// do not check that the number fits. [`ZeroPadded`](super::super::ZeroPadded) writes every number: `ZeroPadded(123u8,
/// 2)` writes `123`.
///
/// ```
/// use cojimuran::{Padded, Part, ZeroPadded};
///
/// assert_eq!(Padded(3u8, 2).to_str(&mut [0; 64]), "03");
/// assert_eq!(ZeroPadded(123u8, 2).to_str(&mut [0; 64]), "123");
/// ```
#[derive(Clone, Copy, PartialEq, Eq, Hash, Debug)]
pub struct Padded<T>(
    /// The number.
    pub T,
    /// The width, in digits.
    pub usize,
);

impl<T: DigitCount + Radix> Part for Padded<T> {
    #[inline(always)]
    #[track_caller]
    fn room(self) -> usize {
        self.1
    }

    #[inline(always)]
    #[track_caller]
    fn write_to(self, buffer: &mut [u8]) -> usize {
        PaddedDigits(10, self.0, self.1).write_to(buffer)
    }

    #[inline(always)]
    #[track_caller]
    fn text_len(self) -> Option<usize> {
        Some(self.1)
    }

    #[inline(always)]
    #[track_caller]
    fn is_known_valid_and_utf8(self, _sealed: Sealed) -> bool {
        fits_decimal_width(self.0.as_u64(), self.1)
    }
}

impl<T: DigitCount + Radix> Show for Padded<T> {
    #[inline(always)]
    #[track_caller]
    fn is_showable(self) -> bool {
        self.is_known_valid_and_utf8(Sealed)
    }

    #[inline(always)]
    #[track_caller]
    fn write_pieces<O: fmt::Write>(self, out: &mut O) -> fmt::Result {
        if self.1 > MOST_DIGITS {
            return PaddedDigits(10, self.0, self.1).write_pieces(out);
        }
        if !self.is_showable() {
            return Err(fmt::Error);
        }
        write_in_one_piece(self, out)
    }
}
