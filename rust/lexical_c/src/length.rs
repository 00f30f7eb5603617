// Made by `strip` from crates/lexical_c/src/length.rt. Edit that file, not this one.

//! The lengths of the texts of numbers.

use crate::format::{CFormat, number_format};
use cojimuran::{ToLexical, sign_len};

// Returns the length of the text of the number, or 0 if the format is invalid.
#[inline]
fn length_in_format<T: ToLexical>(value: T, format: &CFormat) -> usize {
    let Some(format) = number_format(format) else {
        return 0;
    };
    let digits = value.magnitude_digits(format.mantissa_radix());
    sign_len(value, &format) + format.grouped_len(digits)
}

/// Returns the length of the text of a `uint8_t` in the format, or 0 if the format is invalid.
#[unsafe(no_mangle)]
pub extern "C" fn lexical_length_u8(value: u8, format: &CFormat) -> usize {
    length_in_format::<u8>(value, format)
}

/// Returns the length of the text of a `uint16_t` in the format, or 0 if the format is invalid.
#[unsafe(no_mangle)]
pub extern "C" fn lexical_length_u16(value: u16, format: &CFormat) -> usize {
    length_in_format::<u16>(value, format)
}

/// Returns the length of the text of a `uint32_t` in the format, or 0 if the format is invalid.
#[unsafe(no_mangle)]
pub extern "C" fn lexical_length_u32(value: u32, format: &CFormat) -> usize {
    length_in_format::<u32>(value, format)
}

/// Returns the length of the text of a `uint64_t` in the format, or 0 if the format is invalid.
#[unsafe(no_mangle)]
pub extern "C" fn lexical_length_u64(value: u64, format: &CFormat) -> usize {
    length_in_format::<u64>(value, format)
}

/// Returns the length of the text of a `size_t` in the format, or 0 if the format is invalid.
#[unsafe(no_mangle)]
pub extern "C" fn lexical_length_size(value: usize, format: &CFormat) -> usize {
    length_in_format::<u64>(value as u64, format)
}

/// Returns the length of the text of an `int8_t` in the format, or 0 if the format is invalid.
#[unsafe(no_mangle)]
pub extern "C" fn lexical_length_i8(value: i8, format: &CFormat) -> usize {
    length_in_format::<i8>(value, format)
}

/// Returns the length of the text of an `int16_t` in the format, or 0 if the format is invalid.
#[unsafe(no_mangle)]
pub extern "C" fn lexical_length_i16(value: i16, format: &CFormat) -> usize {
    length_in_format::<i16>(value, format)
}

/// Returns the length of the text of an `int32_t` in the format, or 0 if the format is invalid.
#[unsafe(no_mangle)]
pub extern "C" fn lexical_length_i32(value: i32, format: &CFormat) -> usize {
    length_in_format::<i32>(value, format)
}

/// Returns the length of the text of an `int64_t` in the format, or 0 if the format is invalid.
#[unsafe(no_mangle)]
pub extern "C" fn lexical_length_i64(value: i64, format: &CFormat) -> usize {
    length_in_format::<i64>(value, format)
}
