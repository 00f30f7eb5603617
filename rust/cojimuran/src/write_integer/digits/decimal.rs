// Made by `strip` from crates/lexical_write_integer/src/digits/decimal.rt. Edit that file, not this one.

//! Writing decimal digits, two at a time.

pub(crate) mod decimal_pairs;
pub mod jeaiii;
mod kernels;

pub use super::count::decimal_count::{DecimalCount, fallback_digit_count, fast_digit_count};
pub use super::count::logarithm::fast_log10;
use crate::num::num::{LexicalInteger, UnsignedInteger};
use jeaiii::{from_i64, from_u8, from_u16, from_u32, from_u64};

/// An unsigned integer type whose numbers are written in decimal, two digits at a time.
#[diagnostic::on_unimplemented(
    message = "`{Self}` is not an integer type that this crate writes",
    note = "it writes `u8` to `u64`, `usize`, `i8` to `i64` and `isize`",
    note = "in a line `Displayed(&value)` writes another value with `Display`"
)]
pub trait Decimal: DecimalCount {
    /// The largest number of decimal digits of the magnitude of a number of the signed type with the
    /// same number of bits.
    const SIGNED_WIDTH: usize;

    /// Writes the digits of the number to the start of the buffer, and returns how many there are. The
    /// buffer has room for `DECIMAL_WIDTH` bytes.
    ///
    /// # Panics
    ///
    /// If the buffer is [too short](crate::conditions).
    fn decimal(self, buffer: &mut [u8]) -> usize;

    /// Writes the digits of the number to the start of the buffer, and returns how many there are. The
    /// number is below 10^`SIGNED_WIDTH`, as is the magnitude of each number of the signed type, and
    /// the buffer has room for `SIGNED_WIDTH` bytes.
    ///
    /// # Panics
    ///
    /// If the number is 10^19 or above, or if the buffer is [too short](crate::conditions).
    fn decimal_signed(self, buffer: &mut [u8]) -> usize;
}

impl Decimal for u8 {
    const SIGNED_WIDTH: usize = 3;

    #[inline(always)]
    #[track_caller]
    fn decimal_signed(self, buffer: &mut [u8]) -> usize {
        from_u8(self, buffer)
    }

    #[inline(always)]
    #[track_caller]
    fn decimal(self, buffer: &mut [u8]) -> usize {
        from_u8(self, buffer)
    }
}

impl Decimal for u16 {
    const SIGNED_WIDTH: usize = 5;

    #[inline(always)]
    #[track_caller]
    fn decimal_signed(self, buffer: &mut [u8]) -> usize {
        from_u16(self, buffer)
    }

    #[inline(always)]
    #[track_caller]
    fn decimal(self, buffer: &mut [u8]) -> usize {
        from_u16(self, buffer)
    }
}

impl Decimal for u32 {
    const SIGNED_WIDTH: usize = 10;

    #[inline(always)]
    #[track_caller]
    fn decimal_signed(self, buffer: &mut [u8]) -> usize {
        from_u32(self, buffer)
    }

    #[inline(always)]
    #[track_caller]
    fn decimal(self, buffer: &mut [u8]) -> usize {
        from_u32(self, buffer)
    }
}

impl Decimal for u64 {
    const SIGNED_WIDTH: usize = 19;

    #[inline(always)]
    #[track_caller]
    fn decimal_signed(self, buffer: &mut [u8]) -> usize {
        from_i64(self, buffer)
    }

    #[inline(always)]
    #[track_caller]
    fn decimal(self, buffer: &mut [u8]) -> usize {
        from_u64(self, buffer)
    }
}

// The constants of `usize` are those of `u64`.
impl Decimal for usize {
    const SIGNED_WIDTH: usize = 19;

    #[inline(always)]
    #[track_caller]
    fn decimal_signed(self, buffer: &mut [u8]) -> usize {
        from_i64(self as u64, buffer)
    }

    #[inline(always)]
    #[track_caller]
    fn decimal(self, buffer: &mut [u8]) -> usize {
        from_u64(self as u64, buffer)
    }
}
