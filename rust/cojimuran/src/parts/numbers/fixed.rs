// Made by `strip` from crates/lexical_parts/src/numbers/fixed.rt. Edit that file, not this one.

//! Numbers with a fixed number of decimals.

use crate::parts::layout::fill::insert_fill;
use crate::parts::numbers::sign::Sign;
use crate::parts::part::Part;
use crate::parts::sealed::Sealed;
use crate::parts::show::Show;
use crate::write_integer::format::STANDARD;
use crate::write_integer::{NumberFormat, ToLexical, group_digits, sign_len};

// The length of the longest number with decimals, a `u64` in groups of one digit.
pub(crate) const LONGEST_FIXED: usize = 39;

// In Rust nothing else refuses more decimals.
#[inline(always)]
#[track_caller]
fn check_decimals(decimals: usize) {
    assert!(
        decimals <= 19,
        "{} decimals, but at most 19 are possible",
        decimals
    );
}

// Writes the digits of a number to the start of the buffer, after the zeros that a digit before the point requires, and
// returns the number of bytes written.
#[inline(always)]
#[track_caller]
pub(crate) fn write_units<T: ToLexical>(number: T, decimals: usize, buffer: &mut [u8]) -> usize {
    check_decimals(decimals);
    let count = number.write_magnitude(&STANDARD, buffer);
    if count > decimals {
        return count;
    }
    insert_fill(b'0', decimals + 1 - count, count, buffer);
    decimals + 1
}

// Writes the absolute value of a number of units of 10^-`decimals` to the start of the buffer, with its whole part in
// the groups of the format, and returns the number of bytes written.
#[inline(always)]
#[track_caller]
fn write_grouped_units<T: ToLexical>(
    number: T,
    decimals: usize,
    format: &NumberFormat,
    buffer: &mut [u8],
) -> usize {
    let count = write_units(number, decimals, buffer);
    let whole = count - decimals;
    if decimals == 0 {
        return group_digits(whole, format, buffer);
    }
    // A byte for each separator and one for the point. `group_digits` writes over all but the last.
    let points = format.grouped_len(whole) + 1 - whole;
    insert_fill(b'.', points, decimals, &mut buffer[whole..]);
    group_digits(whole, format, buffer) + 1 + decimals
}

/// An integer with a decimal point, such as an amount in cents: `Fixed(-5i64, 2)` writes `-0.05`.
///
/// At least one digit precedes the point, and as many digits follow it as there are decimals, which are at most 19:
/// `Fixed(1234u32, 3)` writes `1.234`. A number without decimals has no point. The room is at most 22 bytes.
///
/// ```
/// use cojimuran::{Fixed, Part};
///
/// assert_eq!(Fixed(-5i64, 2).to_str(&mut [0; 64]), "-0.05");
/// assert_eq!(Fixed(1234u32, 3).to_str(&mut [0; 64]), "1.234");
/// ```
#[derive(Clone, Copy, PartialEq, Eq, Hash, Debug)]
pub struct Fixed<T>(
    /// The number without its point: 1995 for `19.95`.
    pub T,
    /// The number of decimals, at most 19.
    pub usize,
);

impl<T: ToLexical> Part for Fixed<T> {
    #[inline(always)]
    #[track_caller]
    fn room(self) -> usize {
        GroupedFixed(self.0, self.1, &STANDARD).room()
    }

    #[inline(never)]
    #[track_caller]
    fn write_to(self, buffer: &mut [u8]) -> usize {
        GroupedFixed(self.0, self.1, &STANDARD).write_to(buffer)
    }

    #[inline(always)]
    #[track_caller]
    fn text_len(self) -> Option<usize> {
        GroupedFixed(self.0, self.1, &STANDARD).text_len()
    }

    #[inline(always)]
    #[track_caller]
    fn is_known_valid_and_utf8(self, sealed: Sealed) -> bool {
        GroupedFixed(self.0, self.1, &STANDARD).is_known_valid_and_utf8(sealed)
    }
}

impl<T: ToLexical> Show for Fixed<T> {
    #[inline(always)]
    #[track_caller]
    fn is_showable(self) -> bool {
        self.is_known_valid_and_utf8(Sealed)
    }
}

/// A number as [`Fixed`] writes it, with its whole part in the groups of a format.
///
/// The radix and the sign of the format are ignored. In groups of three with `,`, `GroupedFixed(-123456, 2, &format)`
/// writes `-1,234.56`. The room is at most 39 bytes.
///
/// ```
/// use cojimuran::{GroupedFixed, Part};
///
/// let format = cojimuran::NumberFormatBuilder::new().digit_grouping(3, b',').build_strict();
/// assert_eq!(GroupedFixed(-123456, 2, &format).to_str(&mut [0; 64]), "-1,234.56");
/// ```
#[derive(Clone, Copy, PartialEq, Eq, Hash, Debug)]
pub struct GroupedFixed<'a, T>(
    /// The number without its point: 1995 for `19.95`.
    pub T,
    /// The number of decimals, at most 19.
    pub usize,
    /// The format.
    pub &'a NumberFormat,
);

impl<T: ToLexical> Part for GroupedFixed<'_, T> {
    #[inline(always)]
    #[track_caller]
    fn room(self) -> usize {
        check_decimals(self.1);
        let whole = T::DECIMAL_WIDTH.max(self.1 + 1) - self.1;
        usize::from(T::IS_SIGNED) + self.2.grouped_len(whole) + self.1 + self.1.min(1)
    }

    #[inline(never)]
    #[track_caller]
    fn write_to(self, buffer: &mut [u8]) -> usize {
        let start = Sign(self.0, false).write_to(buffer);
        start + write_grouped_units(self.0, self.1, self.2, &mut buffer[start..])
    }

    #[inline(always)]
    #[track_caller]
    fn text_len(self) -> Option<usize> {
        check_decimals(self.1);
        let digits = self.0.magnitude_digits(10);
        let whole = digits.saturating_sub(self.1).max(1);
        let sign = sign_len(self.0, &STANDARD);
        Some(sign + self.2.grouped_len(whole) + self.1 + self.1.min(1))
    }

    #[inline(always)]
    #[track_caller]
    fn is_known_valid_and_utf8(self, _sealed: Sealed) -> bool {
        self.1 <= 19
    }
}

impl<T: ToLexical> Show for GroupedFixed<'_, T> {
    #[inline(always)]
    #[track_caller]
    fn is_showable(self) -> bool {
        self.is_known_valid_and_utf8(Sealed)
    }
}
