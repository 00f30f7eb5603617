// Made by `strip` from crates/lexical_write_integer/src/texts/integers.rt. Edit that file, not this one.

//! The implementations of the writing traits for the ten integer types.

use super::to_lexical::{ToLexical, ToLexicalWithOptions};
use crate::num::constants::FormattedSize;
use crate::num::format::NumberFormat;
use crate::num::options::Options;
use crate::write_integer::digits::decimal::Decimal;
use crate::write_integer::digits::write::WriteInteger;

impl<T: Decimal + FormattedSize> ToLexical for T {
    #[inline(always)]
    #[track_caller]
    fn write_magnitude(self, format: &NumberFormat, buffer: &mut [u8]) -> usize {
        self.write_mantissa(format, buffer)
    }

    #[inline(always)]
    #[track_caller]
    fn magnitude(self) -> u64 {
        self.as_u64()
    }
}

impl ToLexical for i8 {
    #[inline(always)]
    #[track_caller]
    fn write_magnitude(self, format: &NumberFormat, buffer: &mut [u8]) -> usize {
        // The magnitude of the smallest value, 128, is not an `i8`. The other signed types have such a value too.
        self.unsigned_abs().write_mantissa_signed(format, buffer)
    }

    #[inline(always)]
    #[track_caller]
    fn magnitude(self) -> u64 {
        u64::from(self.unsigned_abs())
    }
}

impl ToLexical for i16 {
    #[inline(always)]
    #[track_caller]
    fn write_magnitude(self, format: &NumberFormat, buffer: &mut [u8]) -> usize {
        self.unsigned_abs().write_mantissa_signed(format, buffer)
    }

    #[inline(always)]
    #[track_caller]
    fn magnitude(self) -> u64 {
        u64::from(self.unsigned_abs())
    }
}

impl ToLexical for i32 {
    #[inline(always)]
    #[track_caller]
    fn write_magnitude(self, format: &NumberFormat, buffer: &mut [u8]) -> usize {
        self.unsigned_abs().write_mantissa_signed(format, buffer)
    }

    #[inline(always)]
    #[track_caller]
    fn magnitude(self) -> u64 {
        u64::from(self.unsigned_abs())
    }
}

impl ToLexical for i64 {
    #[inline(always)]
    #[track_caller]
    fn write_magnitude(self, format: &NumberFormat, buffer: &mut [u8]) -> usize {
        self.unsigned_abs().write_mantissa_signed(format, buffer)
    }

    #[inline(always)]
    #[track_caller]
    fn magnitude(self) -> u64 {
        self.unsigned_abs()
    }
}

impl ToLexical for isize {
    #[inline(always)]
    #[track_caller]
    fn write_magnitude(self, format: &NumberFormat, buffer: &mut [u8]) -> usize {
        self.unsigned_abs().write_mantissa_signed(format, buffer)
    }

    #[inline(always)]
    #[track_caller]
    fn magnitude(self) -> u64 {
        self.unsigned_abs() as u64
    }
}

impl ToLexicalWithOptions for u8 {
    type Options = Options;
}

impl ToLexicalWithOptions for u16 {
    type Options = Options;
}

impl ToLexicalWithOptions for u32 {
    type Options = Options;
}

impl ToLexicalWithOptions for u64 {
    type Options = Options;
}

impl ToLexicalWithOptions for usize {
    type Options = Options;
}

impl ToLexicalWithOptions for i8 {
    type Options = Options;
}

impl ToLexicalWithOptions for i16 {
    type Options = Options;
}

impl ToLexicalWithOptions for i32 {
    type Options = Options;
}

impl ToLexicalWithOptions for i64 {
    type Options = Options;
}

impl ToLexicalWithOptions for isize {
    type Options = Options;
}
