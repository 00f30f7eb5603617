// Made by `strip` from crates/lexical_parts/src/numbers/compact.rt. Edit that file, not this one.

//! Numbers in any radix, in little code.
//!
//! `{}` and `write_pieces` write `Digits`, `PaddedDigits` and `Formatted` by these parts. There the radix is mostly
//! known only at run time, and the code of all radices would add 35 KB or more.

use crate::num::limits::is_radix;
use crate::parts::numbers::padded::MOST_DIGITS;
use crate::parts::part::Part;
use crate::parts::sealed::Sealed;
use crate::write_integer::compact::Compact;
use crate::write_integer::format::STANDARD;
use crate::write_integer::{BUFFER_SIZE, NumberFormat, ToLexical, group_digits, write_sign};

// The text of `Digits`.
#[derive(Clone, Copy)]
pub(crate) struct CompactDigits(pub u32, pub u64);

impl Part for CompactDigits {
    #[inline(always)]
    #[track_caller]
    fn room(self) -> usize {
        MOST_DIGITS
    }

    #[inline(always)]
    #[track_caller]
    fn write_to(self, buffer: &mut [u8]) -> usize {
        self.1.compact(self.0, buffer)
    }

    #[inline(always)]
    #[track_caller]
    fn is_known_valid_and_utf8(self, _sealed: Sealed) -> bool {
        is_radix(u64::from(self.0))
    }
}

// The text of `Formatted`.
#[derive(Clone, Copy)]
pub(crate) struct CompactFormatted<'a, T>(pub T, pub &'a NumberFormat);

// Writes the digits of the absolute value in the radix of the format, and returns how many there are.
#[inline(always)]
#[track_caller]
fn write_digits_compactly<T: ToLexical>(
    number: T,
    format: &NumberFormat,
    buffer: &mut [u8],
) -> usize {
    let radix = format.mantissa_radix();
    if radix == 10 {
        number.write_magnitude(&STANDARD, buffer)
    } else {
        let magnitude = number.magnitude();
        magnitude.compact(radix, buffer)
    }
}

impl<T: ToLexical> Part for CompactFormatted<'_, T> {
    #[inline(always)]
    #[track_caller]
    fn room(self) -> usize {
        BUFFER_SIZE
    }

    #[inline(always)]
    #[track_caller]
    fn write_to(self, buffer: &mut [u8]) -> usize {
        let sign = write_sign(self.0, buffer, self.1);
        let digits = &mut buffer[sign..];
        let count = write_digits_compactly(self.0, self.1, digits);
        sign + group_digits(count, self.1, digits)
    }

    #[inline(always)]
    #[track_caller]
    fn is_known_valid_and_utf8(self, _sealed: Sealed) -> bool {
        true
    }
}
