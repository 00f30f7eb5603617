// Made by `strip` from crates/lexical_c/src/general.rt. Edit that file, not this one.

//! Writes a number whose text may not fit, or whose format may have groups, a required sign or lowercase.

use crate::format::{CFormat, number_format};
use crate::integer::WideInteger;
use crate::plain::{format_by_bits, has_only_radix_and_case, write_in_case};
use cojimuran::buffer::copy_to_front;
use cojimuran::{BUFFER_SIZE, Options, ToLexicalWithOptions, WriteOptions};

/// Writes the number to the start of the buffer, and returns the length of its text. Returns 0 and
/// leaves the buffer unchanged if the format is invalid or the text does not fit.
#[cold]
#[inline]
pub fn write_general<T: WideInteger>(value: T, format: &CFormat, buffer: &mut [u8]) -> usize {
    if has_only_radix_and_case(format) {
        if let Some(plain) = format_by_bits(value, format.radix, buffer.len()) {
            return write_in_case(value, &plain, format, buffer);
        }
    }
    let count = write_uppercase(value, format, buffer);
    if format.lowercase != 0 {
        buffer[..count].make_ascii_lowercase();
    }
    count
}

// Writes the number in uppercase, whatever the format requests, or refuses it as `write_general` does.
#[inline]
fn write_uppercase<T: ToLexicalWithOptions>(
    value: T,
    format: &CFormat,
    buffer: &mut [u8],
) -> usize {
    let Some(format) = number_format(format) else {
        return 0;
    };
    if buffer.len() >= Options::new().buffer_size::<T>(&format) {
        return value.write_text(buffer, &format);
    }
    // The text of this number may still fit. It is written to an array, and copied if it fits.
    let mut text = [0; BUFFER_SIZE];
    let count = value.write_text(&mut text, &format);
    if count <= buffer.len() {
        copy_to_front(&text[..count], buffer)
    } else {
        0
    }
}
