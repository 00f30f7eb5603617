// Made by `strip` from crates/lexical_c/src/buffer_size.rt. Edit that file, not this one.

//! The sizes of buffers that are enough for every number of a type.

use crate::format::{CFormat, number_format};
use cojimuran::{Options, ToLexicalWithOptions, WriteOptions};

// Returns a buffer size that is enough for every number of the type in the format, or 0 if the format
// is invalid.
#[inline]
fn buffer_size<T: ToLexicalWithOptions>(format: &CFormat) -> usize {
    match number_format(format) {
        Some(format) => Options::new().buffer_size::<T>(&format),
        None => 0,
    }
}

/// Returns a buffer size that is enough for every `uint8_t`, or 0 if the format is invalid.
#[unsafe(no_mangle)]
pub extern "C" fn lexical_buffer_size_u8(format: &CFormat) -> usize {
    buffer_size::<u8>(format)
}

/// Returns a buffer size that is enough for every `uint16_t`, or 0 if the format is invalid.
#[unsafe(no_mangle)]
pub extern "C" fn lexical_buffer_size_u16(format: &CFormat) -> usize {
    buffer_size::<u16>(format)
}

/// Returns a buffer size that is enough for every `uint32_t`, or 0 if the format is invalid.
#[unsafe(no_mangle)]
pub extern "C" fn lexical_buffer_size_u32(format: &CFormat) -> usize {
    buffer_size::<u32>(format)
}

/// Returns a buffer size that is enough for every `uint64_t`, or 0 if the format is invalid.
#[unsafe(no_mangle)]
pub extern "C" fn lexical_buffer_size_u64(format: &CFormat) -> usize {
    buffer_size::<u64>(format)
}

/// Returns a buffer size that is enough for every `size_t`, or 0 if the format is invalid.
#[unsafe(no_mangle)]
pub extern "C" fn lexical_buffer_size_size(format: &CFormat) -> usize {
    buffer_size::<u64>(format)
}

/// Returns a buffer size that is enough for every `int8_t`, or 0 if the format is invalid.
#[unsafe(no_mangle)]
pub extern "C" fn lexical_buffer_size_i8(format: &CFormat) -> usize {
    buffer_size::<i8>(format)
}

/// Returns a buffer size that is enough for every `int16_t`, or 0 if the format is invalid.
#[unsafe(no_mangle)]
pub extern "C" fn lexical_buffer_size_i16(format: &CFormat) -> usize {
    buffer_size::<i16>(format)
}

/// Returns a buffer size that is enough for every `int32_t`, or 0 if the format is invalid.
#[unsafe(no_mangle)]
pub extern "C" fn lexical_buffer_size_i32(format: &CFormat) -> usize {
    buffer_size::<i32>(format)
}

/// Returns a buffer size that is enough for every `int64_t`, or 0 if the format is invalid.
#[unsafe(no_mangle)]
pub extern "C" fn lexical_buffer_size_i64(format: &CFormat) -> usize {
    buffer_size::<i64>(format)
}
