// Made by `strip` from crates/lexical_parts/src/numbers/scientific.rt. Edit that file, not this one.

//! Numbers in scientific notation.

use crate::parts::numbers::sign::Sign;
use crate::parts::part::Part;
use crate::parts::sealed::Sealed;
use crate::parts::show::Show;
use crate::parts::texts::bytes::Bytes;
use crate::write_integer::ToLexical;
use crate::write_integer::format::STANDARD;

// The room of a number in scientific notation of the longest type.
const LONGEST_SCIENTIFIC: usize = 33;

// Returns how many digits are left without the zeros at the end. At least the first `least` digits are left.
#[inline]
#[track_caller]
pub(crate) fn count_without_zeros(digits: &[u8], least: usize) -> usize {
    let mut count = digits.len();
    while least < count && digits[count - 1] == b'0' {
        count -= 1;
    }
    count
}

// Writes the digits of a number with a point after the first, if there are more, and returns their length.
#[inline]
#[track_caller]
fn write_with_point(digits: &[u8], buffer: &mut [u8]) -> usize {
    if digits.len() == 1 {
        return Bytes(digits).write_to(buffer);
    }
    (Bytes(&digits[..1]), ".", Bytes(&digits[1..])).write_to(buffer)
}

// Returns the exponent of the first of the digits, if that of the last is `exponent`. The exponent of 0 is 0.
#[inline]
#[track_caller]
fn first_exponent(digits: &[u8], exponent: i32) -> i64 {
    if digits == b"0".as_slice() {
        return 0;
    }
    i64::from(exponent) + (digits.len() - 1) as i64
}

// Writes `e` and the exponent to the start of the buffer, and returns the number of bytes written.
#[inline]
#[track_caller]
fn write_exponent(exponent: i64, buffer: &mut [u8]) -> usize {
    let start = if exponent < 0 { "e-" } else { "e" };
    (start, exponent.unsigned_abs() as u32).write_to(buffer)
}

// Writes the absolute value of a number times 10^`exponent` to the start of the buffer, and returns the number of
// bytes written.
#[inline]
#[track_caller]
fn write_magnitude<T: ToLexical>(number: T, exponent: i32, buffer: &mut [u8]) -> usize {
    let mut digits = [0; 20];
    let count = number.write_magnitude(&STANDARD, &mut digits);
    let digits = &digits[..count];
    let kept = count_without_zeros(digits, 1);
    let end = write_with_point(&digits[..kept], buffer);
    end + write_exponent(first_exponent(digits, exponent), &mut buffer[end..])
}

/// A number times a power of ten, as `{:e}` writes one: `Scientific(1234, -59)` writes `1.234e-56`.
///
/// The digits have no zeros at the end, and a point after the first one if there are more: `Scientific(-1000, 0)`
/// writes `-1e3`. The room is 13 bytes more than that of [`Decimal`](super::super::Decimal).
///
/// ```
/// use cojimuran::{Part, Scientific};
///
/// assert_eq!(Scientific(1234, -59).to_str(&mut [0; 64]), "1.234e-56");
/// assert_eq!(Scientific(-1000, 0).to_str(&mut [0; 64]), "-1e3");
/// ```
#[derive(Clone, Copy, PartialEq, Eq, Hash, Debug)]
pub struct Scientific<T>(
    /// The number.
    pub T,
    /// The exponent of the power of ten.
    pub i32,
);

impl<T: ToLexical> Part for Scientific<T> {
    #[inline]
    #[track_caller]
    fn room(self) -> usize {
        T::FORMATTED_SIZE_DECIMAL + 13
    }

    #[inline]
    #[track_caller]
    fn write_to(self, buffer: &mut [u8]) -> usize {
        let start = Sign(self.0, false).write_to(buffer);
        start + write_magnitude(self.0, self.1, &mut buffer[start..])
    }

    #[inline]
    #[track_caller]
    fn text_len(self) -> Option<usize> {
        // How many zeros the number ends with, only its digits say.
        Some(self.write_to(&mut [0; LONGEST_SCIENTIFIC]))
    }

    #[inline(always)]
    #[track_caller]
    fn is_known_valid_and_utf8(self, _sealed: Sealed) -> bool {
        true
    }
}

impl<T: ToLexical> Show for Scientific<T> {
    #[inline]
    #[track_caller]
    fn is_showable(self) -> bool {
        true
    }
}
