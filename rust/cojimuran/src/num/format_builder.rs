// Made by `strip` from crates/lexical_num/src/format_builder.rt. Edit that file, not this one.

//! Building a format.

use crate::num::error::{Error, Result};
use crate::num::format::{NumberFormat, Parts, STANDARD};
use crate::num::limits::{is_group_size, is_mark, is_radix};

/// A builder of formats. Its fields are checked only when a format is built.
///
/// ```
/// use cojimuran::{NumberFormatBuilder, Options, ToLexicalWithOptions};
///
/// let thousands = NumberFormatBuilder::new().digit_grouping(3, b',').build_strict();
/// let mut buffer = [0; 32];
/// let text = 1234567u64.to_lexical_with_options(&mut buffer, &thousands, &Options::new());
/// assert_eq!(text, b"1,234,567");
/// ```
#[derive(Clone, Copy, PartialEq, Eq, Hash, Debug)]
pub struct NumberFormatBuilder {
    parts: Parts,
}

impl NumberFormatBuilder {
    /// Returns a builder with the fields of `format::STANDARD`: both radices are 10, no sign is required, and
    /// the digits are not grouped.
    #[must_use]
    #[inline]
    pub const fn new() -> Self {
        NumberFormatBuilder {
            parts: STANDARD.parts,
        }
    }

    /// Returns the format whose radices are both 2, with no required sign and no groups.
    #[must_use]
    #[inline]
    pub const fn binary() -> NumberFormat {
        Self::from_radix(2)
    }

    /// Returns the format whose radices are both 16, with no required sign and no groups.
    #[must_use]
    #[inline]
    pub const fn hexadecimal() -> NumberFormat {
        Self::from_radix(16)
    }

    /// Returns the format whose radices are both `radix`, from 2 to 36, with no required sign and no
    /// groups. It is finished: for groups or a required sign begin with `new().radix(radix)`.
    ///
    /// # Panics
    ///
    /// If the radix is not from 2 to 36.
    #[must_use]
    #[inline]
    pub const fn from_radix(radix: u8) -> NumberFormat {
        assert!(is_radix(radix as u64), "the radix is not from 2 to 36");
        NumberFormat {
            parts: Parts {
                mantissa_radix: radix,
                exponent_radix: radix,
                required_mantissa_sign: false,
                digit_grouping: None,
            },
        }
    }

    /// Sets the mantissa radix, as `mantissa_radix` does. The exponent radix is unchanged.
    #[must_use]
    #[inline]
    pub const fn radix(self, radix: u8) -> Self {
        self.mantissa_radix(radix)
    }

    /// Sets the mantissa radix. The exponent radix is unchanged.
    #[must_use]
    #[inline]
    pub const fn mantissa_radix(mut self, radix: u8) -> Self {
        self.parts.mantissa_radix = radix;
        self
    }

    /// Sets the exponent radix. The mantissa radix is unchanged.
    #[must_use]
    #[inline]
    pub const fn exponent_radix(mut self, radix: u8) -> Self {
        self.parts.exponent_radix = radix;
        self
    }

    /// Sets whether a `+` precedes a number that is not negative.
    #[must_use]
    #[inline]
    pub const fn required_mantissa_sign(mut self, required: bool) -> Self {
        self.parts.required_mantissa_sign = required;
        self
    }

    /// Sets the number of digits of a group, and the separator between two groups. Groups are
    /// counted from the right: in groups of three digits `1234567` is written `1,234,567`.
    #[must_use]
    #[inline]
    pub const fn digit_grouping(mut self, size: u8, mark: u8) -> Self {
        self.parts.digit_grouping = Some((size, mark));
        self
    }

    /// Returns the format with these fields. The builder is unchanged.
    ///
    /// # Errors
    ///
    /// The error names the first invalid field: the mantissa radix is checked first, then the exponent
    /// radix, then the group size, then the separator.
    #[inline]
    pub const fn build(&self) -> Result<NumberFormat> {
        if !is_radix(self.parts.mantissa_radix as u64) {
            return Err(Error::InvalidMantissaRadix(self.parts.mantissa_radix));
        }
        if !is_radix(self.parts.exponent_radix as u64) {
            return Err(Error::InvalidExponentRadix(self.parts.exponent_radix));
        }
        if let Some((size, mark)) = self.parts.digit_grouping {
            if !is_group_size(size as u64) {
                return Err(Error::InvalidGroupSize(size));
            }
            if !is_mark(mark as u64) {
                return Err(Error::InvalidGroupMark(mark));
            }
        }
        Ok(self.build_strict())
    }

    /// Returns the format with these fields, which are valid. Both radices are from 2 to 36. If groups
    /// were set, their size is from 1 to 64, and the separator is from 32 to 126 and is not a letter,
    /// a digit, `+` or `-`.
    ///
    /// # Panics
    ///
    /// If a field is invalid, that is, if `build` returns an error.
    #[must_use]
    #[inline]
    #[track_caller]
    pub const fn build_strict(&self) -> NumberFormat {
        // In Rust one of these says which field is invalid.
        assert!(
            is_radix(self.parts.mantissa_radix as u64),
            "the mantissa radix is not from 2 to 36"
        );
        assert!(
            is_radix(self.parts.exponent_radix as u64),
            "the exponent radix is not from 2 to 36"
        );
        if let Some((size, mark)) = self.parts.digit_grouping {
            assert!(
                is_group_size(size as u64),
                "the group size is not from 1 to 64"
            );
            assert!(
                is_mark(mark as u64),
                "the separator is a letter, a digit or a sign, or not printable ASCII"
            );
        }
        NumberFormat { parts: self.parts }
    }
}

impl Default for NumberFormatBuilder {
    #[inline]
    fn default() -> Self {
        NumberFormatBuilder::new()
    }
}
