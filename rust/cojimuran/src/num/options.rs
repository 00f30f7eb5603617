// Made by `strip` from crates/lexical_num/src/options.rt. Edit that file, not this one.

//! The options of writing an integer, which have no fields yet.

use crate::num::constants::FormattedSize;
use crate::num::error::Result;
use crate::num::format::NumberFormat;

/// The options of writing a number: whether they are valid, and how long a buffer they require.
///
/// ```
/// use cojimuran::{FormattedSize, NumberFormat, Options, WriteOptions, format::STANDARD};
///
/// fn size_of<T: FormattedSize>(format: &NumberFormat) -> usize {
///     Options::new().buffer_size::<T>(format)
/// }
/// assert_eq!(size_of::<u8>(&STANDARD), 3);
/// ```
pub trait WriteOptions {
    /// Returns whether numbers can be written with the options.
    #[must_use]
    fn is_valid(&self) -> bool;

    /// Returns the length of a buffer that is enough for every number of the type in the format: in a radix other than
    /// 10 `FORMATTED_SIZE`, and in radix 10 what `FORMATTED_SIZE_DECIMAL` digits take in the groups of the format, and
    /// one byte for a required sign.
    #[must_use]
    fn buffer_size<T: FormattedSize>(&self, format: &NumberFormat) -> usize;
}

/// The options of writing an integer. They have no fields yet, so all values are equal.
///
/// ```
/// use cojimuran::{Options, format::STANDARD};
///
/// const SIZE: usize = Options::new().buffer_size_const::<i32>(&STANDARD);
/// assert_eq!(SIZE, 11);
/// ```
#[derive(Clone, Copy, PartialEq, Eq, PartialOrd, Ord, Debug)]
#[non_exhaustive]
pub struct Options {}

/// The standard options.
pub const STANDARD: Options = Options {};

impl Options {
    /// Returns the options.
    #[must_use]
    #[inline]
    pub const fn new() -> Self {
        STANDARD
    }

    /// Returns the options, which do not depend on the radix.
    #[must_use]
    #[inline]
    pub const fn from_radix(_radix: u8) -> Self {
        Self::new()
    }

    /// Returns whether numbers can be written with the options. This is always true.
    #[must_use]
    #[inline]
    pub const fn is_valid(&self) -> bool {
        true
    }

    /// Returns the length of a buffer that is enough for every number of the type in the format, as `buffer_size` does,
    /// also in a constant.
    #[must_use]
    #[inline]
    pub const fn buffer_size_const<T: FormattedSize>(&self, format: &NumberFormat) -> usize {
        if format.mantissa_radix() != 10 {
            return T::FORMATTED_SIZE;
        }
        let sign = format.required_mantissa_sign() as usize;
        sign + format.grouped_len(T::FORMATTED_SIZE_DECIMAL)
    }

    /// Returns a builder of options.
    #[must_use]
    #[inline]
    pub const fn builder() -> OptionsBuilder {
        OptionsBuilder::new()
    }

    /// Returns a builder that builds these options.
    #[must_use]
    #[inline]
    pub const fn rebuild(&self) -> OptionsBuilder {
        Self::builder()
    }
}

impl Default for Options {
    #[inline]
    fn default() -> Self {
        Self::new()
    }
}

impl WriteOptions for Options {
    #[inline]
    fn is_valid(&self) -> bool {
        Options::is_valid(self)
    }

    #[inline]
    fn buffer_size<T: FormattedSize>(&self, format: &NumberFormat) -> usize {
        self.buffer_size_const::<T>(format)
    }
}

/// A builder of options. It has nothing to set yet, so all values are equal.
///
/// ```
/// use cojimuran::{Options, OptionsBuilder};
///
/// assert_eq!(OptionsBuilder::new().build(), Ok(Options::new()));
/// ```
#[derive(Clone, Copy, PartialEq, Eq, PartialOrd, Ord, Debug)]
#[non_exhaustive]
pub struct OptionsBuilder {}

impl OptionsBuilder {
    /// Returns a builder of options.
    #[must_use]
    #[inline]
    pub const fn new() -> Self {
        OptionsBuilder {}
    }

    /// Returns whether options can be built. This is always true.
    #[must_use]
    #[inline]
    pub const fn is_valid(&self) -> bool {
        true
    }

    /// Returns the options without checking them.
    #[must_use]
    #[inline]
    pub const fn build_unchecked(&self) -> Options {
        Options::new()
    }

    /// Returns the options.
    #[must_use]
    #[inline]
    #[track_caller]
    pub const fn build_strict(&self) -> Options {
        self.build_unchecked()
    }

    /// Returns the options.
    ///
    /// # Errors
    ///
    /// None: options have one value.
    #[inline]
    pub const fn build(&self) -> Result<Options> {
        Ok(self.build_unchecked())
    }
}

impl Default for OptionsBuilder {
    #[inline]
    fn default() -> Self {
        Self::new()
    }
}
