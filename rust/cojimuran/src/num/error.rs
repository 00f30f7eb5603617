// Made by `strip` from crates/lexical_num/src/error.rt. Edit that file, not this one.

//! The errors of the format builder.

use core::fmt;

/// The result of building: the value, or the error. `Result<T, E>` with another error is that of the standard library,
/// so an import of all names of this crate does not change what it means.
///
/// ```
/// use cojimuran::{NumberFormat, NumberFormatBuilder, Result};
///
/// fn format(radix: u8) -> Result<NumberFormat> {
///     NumberFormatBuilder::new().mantissa_radix(radix).build()
/// }
/// assert!(format(36).is_ok() && format(37).is_err());
/// ```
pub type Result<T, E = Error> = core::result::Result<T, E>;

/// Why a format is not valid: its first invalid field, with the value of that field.
///
/// ```
/// use cojimuran::{Error, NumberFormatBuilder};
///
/// let error = NumberFormatBuilder::new().mantissa_radix(37).build().unwrap_err();
/// assert_eq!(error, Error::InvalidMantissaRadix(37));
/// assert_eq!(error.to_string(), "invalid mantissa radix 37");
/// ```
#[derive(Clone, Copy, PartialEq, Eq, Hash, Debug)]
#[non_exhaustive]
pub enum Error {
    /// The mantissa radix is below 2 or above 36.
    InvalidMantissaRadix(u8),
    /// The exponent radix is below 2 or above 36.
    InvalidExponentRadix(u8),
    /// The number of digits of a group is 0 or above 64.
    InvalidGroupSize(u8),
    /// The mark, which is the separator between two groups, is not from 32 to 126, or it is a
    /// letter, a digit, `+` or `-`.
    InvalidGroupMark(u8),
}

impl fmt::Display for Error {
    #[inline]
    fn fmt(&self, f: &mut fmt::Formatter<'_>) -> fmt::Result {
        match self {
            Error::InvalidMantissaRadix(radix) => write!(f, "invalid mantissa radix {radix}"),
            Error::InvalidExponentRadix(radix) => write!(f, "invalid exponent radix {radix}"),
            Error::InvalidGroupSize(size) => write!(f, "invalid group size {size}"),
            Error::InvalidGroupMark(mark) => write!(f, "invalid group mark {mark}"),
        }
    }
}

impl core::error::Error for Error {}
