// Made by `strip` from crates/lexical_num/src/format.rt. Edit that file, not this one.

//! Formats: how a number is written.

use crate::num::limits::{is_group_size, is_mark, is_radix};

/// The parts of a format, valid or not: the radices of the mantissa and of the exponent, whether a
/// `+` precedes a number that is not negative, and, if the digits are grouped, the number of digits
/// of a group and the mark, which is the separator between two groups.
#[derive(Clone, Copy, PartialEq, Eq, Hash, Debug)]
pub(crate) struct Parts {
    pub mantissa_radix: u8,
    pub exponent_radix: u8,
    pub required_mantissa_sign: bool,
    pub digit_grouping: Option<(u8, u8)>,
}

impl Parts {
    /// Returns whether a format can have these parts.
    #[must_use]
    #[inline]
    pub const fn are_valid(&self) -> bool {
        let are_groups_valid = match self.digit_grouping {
            Some((size, mark)) => is_group_size(size as u64) && is_mark(mark as u64),
            None => true,
        };
        is_radix(self.mantissa_radix as u64)
            && is_radix(self.exponent_radix as u64)
            && are_groups_valid
    }
}

/// How a number is written: in which radix, with which groups of digits, and whether it needs a `+`.
///
/// A format is always valid: both radices are from 2 to 36. If the digits are grouped, a group has from 1 to 64 digits,
/// and the separator is a printable ASCII character other than a letter, a digit or a sign.
/// [`NumberFormatBuilder`](super::NumberFormatBuilder) builds a format.
///
/// ```
/// use cojimuran::{NumberFormat, NumberFormatBuilder};
///
/// const HEXADECIMAL: NumberFormat = NumberFormatBuilder::from_radix(16);
/// assert_eq!(HEXADECIMAL.mantissa_radix(), 16);
/// ```
#[derive(Clone, Copy, PartialEq, Eq, Hash, Debug)]
pub struct NumberFormat {
    pub(crate) parts: Parts,
}

/// The decimal format, with no sign before a number that is not negative, and no groups.
pub const STANDARD: NumberFormat = NumberFormat {
    parts: Parts {
        mantissa_radix: 10,
        exponent_radix: 10,
        required_mantissa_sign: false,
        digit_grouping: None,
    },
};

impl NumberFormat {
    /// Returns the mantissa radix, from 2 to 36, as `mantissa_radix` does.
    #[must_use]
    #[inline]
    pub const fn radix(&self) -> u32 {
        self.mantissa_radix()
    }

    /// Returns the mantissa radix, from 2 to 36, in which integers are written.
    #[must_use]
    #[inline]
    pub const fn mantissa_radix(&self) -> u32 {
        self.parts.mantissa_radix as u32
    }

    /// Returns the exponent radix, from 2 to 36, in which exponents are written.
    #[must_use]
    #[inline]
    pub const fn exponent_radix(&self) -> u32 {
        self.parts.exponent_radix as u32
    }

    /// Returns whether a `+` precedes a number that is not negative.
    #[must_use]
    #[inline]
    pub const fn required_mantissa_sign(&self) -> bool {
        self.parts.required_mantissa_sign
    }

    /// Returns the number of digits of a group, from 1 to 64, and the separator between two groups,
    /// or `None` if the digits are not grouped.
    #[must_use]
    #[inline]
    pub const fn digit_grouping(&self) -> Option<(u8, u8)> {
        self.parts.digit_grouping
    }

    /// Returns the number of bytes that `count` digits take in the format. If the digits are grouped,
    /// a separator precedes each group but the first: 9 for 7 digits in groups of three. The count is at most
    /// `isize::MAX`.
    ///
    /// # Panics
    ///
    /// If the digits are grouped and the count is above `isize::MAX`.
    #[must_use]
    #[inline]
    pub const fn grouped_len(&self, count: usize) -> usize {
        match self.digit_grouping() {
            Some((size, _)) => {
                // In Rust nothing else refuses a sum that wraps.
                assert!(count <= usize::MAX / 2, "the count is above isize::MAX");
                count + count.saturating_sub(1) / size as usize
            }
            None => count,
        }
    }

    /// Returns whether numbers can be written in the format. It is always true, because a builder makes no other
    /// formats.
    #[must_use]
    #[inline]
    pub const fn is_valid(&self) -> bool {
        self.parts.are_valid()
    }
}

impl Default for NumberFormat {
    #[inline]
    fn default() -> Self {
        STANDARD
    }
}
