// Made by `strip` from crates/lexical_parts/src/numbers/formatted.rt. Edit that file, not this one.

//! A number in a format, which has a radix, a sign and groups of digits.

use crate::parts::numbers::compact::CompactFormatted;
use crate::parts::part::Part;
use crate::parts::sealed::Sealed;
use crate::parts::show::Show;
use crate::write_integer::digit_count::DigitCount;
use crate::write_integer::{BUFFER_SIZE, NumberFormat, ToLexical, sign_len};
use core::fmt;

// Returns the largest absolute value of a number of the type.
#[inline(always)]
#[track_caller]
fn largest_magnitude<T: ToLexical>() -> u64 {
    let all_bits = u64::MAX >> (64 - T::BITS);
    if T::IS_SIGNED {
        all_bits / 2 + 1
    } else {
        all_bits
    }
}

/// A number in a format, with its sign and its groups of digits.
///
/// In a format with groups of three digits and the separator `,`, `Formatted(1234567, &format)` writes `1,234,567`. The
/// room is the length of the longest text of the type in the format: 26 bytes for 64 bits in decimal and groups of
/// three, and at most 128 bytes for every type and format.
///
/// If the format is a constant where you call `to_str`, your program has only the code of its radix. If it is known
/// only at run time, your program has [the code of every radix](crate::costs#a-radix-that-is-known-only-at-run-time),
/// which is 36 KB for a `u8` and 69 KB for a `u64`. `write_pieces` and `{}` add 5 to 12 KB instead, because they divide
/// once for each digit.
///
/// ```
/// use cojimuran::{Formatted, Part};
///
/// let format = cojimuran::NumberFormatBuilder::new().digit_grouping(3, b',').build_strict();
/// assert_eq!(Formatted(1234567, &format).to_str(&mut [0; 64]), "1,234,567");
/// ```
#[derive(Clone, Copy, PartialEq, Eq, Hash, Debug)]
pub struct Formatted<'a, T>(
    /// The number.
    pub T,
    /// The format.
    pub &'a NumberFormat,
);

impl<T: ToLexical> Part for Formatted<'_, T> {
    #[inline(always)]
    #[track_caller]
    fn room(self) -> usize {
        let sign = usize::from(T::IS_SIGNED || self.1.required_mantissa_sign());
        let digits = largest_magnitude::<T>().digit_count(self.1.mantissa_radix());
        sign + self.1.grouped_len(digits)
    }

    #[inline(always)]
    #[track_caller]
    fn write_to(self, buffer: &mut [u8]) -> usize {
        self.0.write_text(buffer, self.1)
    }

    #[inline(always)]
    #[track_caller]
    fn text_len(self) -> Option<usize> {
        let digits = self.0.magnitude_digits(self.1.mantissa_radix());
        Some(sign_len(self.0, self.1) + self.1.grouped_len(digits))
    }

    #[inline(always)]
    #[track_caller]
    fn is_known_valid_and_utf8(self, _sealed: Sealed) -> bool {
        true
    }
}

impl<T: ToLexical> Show for Formatted<'_, T> {
    #[inline(always)]
    #[track_caller]
    fn is_showable(self) -> bool {
        true
    }

    #[inline(always)]
    #[track_caller]
    fn write_pieces<O: fmt::Write>(self, out: &mut O) -> fmt::Result {
        out.write_str(CompactFormatted(self.0, self.1).to_str(&mut [0; BUFFER_SIZE]))
    }
}
