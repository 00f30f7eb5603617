// Made by `strip` from crates/lexical_write_integer/src/digits/write.rt. Edit that file, not this one.

//! Writing the digits of a number in any radix: with the decimal writer in radix 10, and otherwise with the writer of
//! that radix.

use super::count::DigitCount;
use super::decimal::Decimal;
use super::radix::{Radix, write_in_radix};
use crate::num::format::NumberFormat;
use crate::num::num::{LexicalInteger, UnsignedInteger};

/// Writes the digits of the number to the start of the buffer, and returns how many there are. The radix is
/// from 2 to 36. The buffer has room for `DECIMAL_WIDTH` bytes in radix 10, and for the digits in another radix.
#[inline(always)]
#[track_caller]
pub(crate) fn write_integer<T: Decimal + DigitCount>(
    value: T,
    radix: u32,
    buffer: &mut [u8],
) -> usize {
    if radix == 10 {
        value.decimal(buffer)
    } else {
        write_in_radix(value, radix, buffer)
    }
}

/// An unsigned integer type whose numbers are written in every radix.
///
/// Each method writes the digits of the number to the start of the buffer, without a sign, and returns
/// how many there are. The buffer has room for `DECIMAL_WIDTH` bytes in radix 10, and for the digits in
/// another radix. In radix 10 the `_signed` methods write numbers below 10^`SIGNED_WIDTH`, and their
/// buffer has room for `SIGNED_WIDTH` bytes.
pub trait WriteInteger: Decimal + Radix {
    /// Writes the digits in a radix from 2 to 36.
    ///
    /// # Panics
    ///
    /// If the radix is not from 2 to 36, or if the buffer is [too short](crate::conditions).
    #[inline(always)]
    #[track_caller]
    fn write_integer(self, radix: u32, buffer: &mut [u8]) -> usize {
        write_integer(self, radix, buffer)
    }

    /// Writes the digits of the magnitude of a signed number, without its sign, in a radix from 2 to 36.
    ///
    /// # Panics
    ///
    /// If the radix is not from 2 to 36, or if the radix is 10 and the number is 10^19 or above, or if the buffer is
    /// [too short](crate::conditions).
    #[inline(always)]
    #[track_caller]
    fn write_integer_signed(self, radix: u32, buffer: &mut [u8]) -> usize {
        if radix == 10 {
            self.decimal_signed(buffer)
        } else {
            write_in_radix(self, radix, buffer)
        }
    }

    /// Writes the digits in the mantissa radix of the format.
    ///
    /// # Panics
    ///
    /// If the buffer is [too short](crate::conditions).
    #[inline(always)]
    #[track_caller]
    fn write_mantissa(self, format: &NumberFormat, buffer: &mut [u8]) -> usize {
        self.write_integer(format.mantissa_radix(), buffer)
    }

    /// Writes the digits of the magnitude of a signed number, without its sign, in the mantissa radix of the format.
    ///
    /// # Panics
    ///
    /// If the radix is 10 and the number is 10^19 or above, or if the buffer is [too short](crate::conditions).
    #[inline(always)]
    #[track_caller]
    fn write_mantissa_signed(self, format: &NumberFormat, buffer: &mut [u8]) -> usize {
        self.write_integer_signed(format.mantissa_radix(), buffer)
    }

    /// Writes the digits in the exponent radix of the format.
    ///
    /// # Panics
    ///
    /// If the buffer is [too short](crate::conditions).
    #[inline(always)]
    #[track_caller]
    fn write_exponent(self, format: &NumberFormat, buffer: &mut [u8]) -> usize {
        self.write_integer(format.exponent_radix(), buffer)
    }

    /// Writes the digits of the magnitude of a signed number, without its sign, in the exponent radix of the format.
    ///
    /// # Panics
    ///
    /// If the radix is 10 and the number is 10^19 or above, or if the buffer is [too short](crate::conditions).
    #[inline(always)]
    #[track_caller]
    fn write_exponent_signed(self, format: &NumberFormat, buffer: &mut [u8]) -> usize {
        self.write_integer_signed(format.exponent_radix(), buffer)
    }
}

impl<T: Decimal> WriteInteger for T {}
