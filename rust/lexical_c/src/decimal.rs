// Made by `strip` from crates/lexical_c/src/decimal.rt. Edit that file, not this one.

//! The functions that write a number in decimal, without a format. Each returns the length of the text, or
//! returns 0 and leaves the buffer unchanged if the text does not fit.

use crate::integer::CInteger;
use cojimuran::buffer::copy_to_front;
use cojimuran::{BUFFER_SIZE, ToLexicalWithOptions};

/// Writes a number in decimal to the buffer, and returns the length of its text, or 0 if the text does not fit.
#[inline]
pub fn write_decimal<T: CInteger>(value: T, buffer: &mut [u8]) -> usize {
    if T::FORMATTED_SIZE_DECIMAL <= buffer.len() {
        value.write_lexical(buffer)
    } else {
        write_decimal_by_array(value.widen(), buffer)
    }
}

// Does what `write_decimal` does, by an array.
#[cold]
#[inline]
fn write_decimal_by_array<T: ToLexicalWithOptions>(value: T, buffer: &mut [u8]) -> usize {
    let mut text = [0; BUFFER_SIZE];
    let count = value.write_lexical(&mut text);
    if count <= buffer.len() {
        copy_to_front(&text[..count], buffer)
    } else {
        0
    }
}

/// Writes a `uint8_t` in decimal to the buffer, and returns the length of its text, or 0 if it does not fit.
#[inline]
pub fn lexical_decimal_u8(value: u8, buffer: &mut [u8]) -> usize {
    write_decimal::<u8>(value, buffer)
}

/// Writes a `uint16_t` in decimal to the buffer, and returns the length of its text, or 0 if it does not fit.
#[inline]
pub fn lexical_decimal_u16(value: u16, buffer: &mut [u8]) -> usize {
    write_decimal::<u16>(value, buffer)
}

/// Writes a `uint32_t` in decimal to the buffer, and returns the length of its text, or 0 if it does not fit.
#[inline]
pub fn lexical_decimal_u32(value: u32, buffer: &mut [u8]) -> usize {
    write_decimal::<u32>(value, buffer)
}

/// Writes a `uint64_t` in decimal to the buffer, and returns the length of its text, or 0 if it does not fit.
#[inline]
pub fn lexical_decimal_u64(value: u64, buffer: &mut [u8]) -> usize {
    write_decimal::<u64>(value, buffer)
}

/// Writes a `size_t` in decimal to the buffer, and returns the length of its text, or 0 if it does not fit.
#[inline]
pub fn lexical_decimal_size(value: usize, buffer: &mut [u8]) -> usize {
    write_decimal::<u64>(value as u64, buffer)
}

/// Writes an `int8_t` in decimal to the buffer, and returns the length of its text, or 0 if it does not fit.
#[inline]
pub fn lexical_decimal_i8(value: i8, buffer: &mut [u8]) -> usize {
    write_decimal::<i8>(value, buffer)
}

/// Writes an `int16_t` in decimal to the buffer, and returns the length of its text, or 0 if it does not fit.
#[inline]
pub fn lexical_decimal_i16(value: i16, buffer: &mut [u8]) -> usize {
    write_decimal::<i16>(value, buffer)
}

/// Writes an `int32_t` in decimal to the buffer, and returns the length of its text, or 0 if it does not fit.
#[inline]
pub fn lexical_decimal_i32(value: i32, buffer: &mut [u8]) -> usize {
    write_decimal::<i32>(value, buffer)
}

/// Writes an `int64_t` in decimal to the buffer, and returns the length of its text, or 0 if it does not fit.
#[inline]
pub fn lexical_decimal_i64(value: i64, buffer: &mut [u8]) -> usize {
    write_decimal::<i64>(value, buffer)
}
