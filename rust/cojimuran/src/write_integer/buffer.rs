// Made by `strip` from crates/lexical_write_integer/src/buffer.rt. Edit that file, not this one.

//! The first bytes of a buffer.

/// Copies a text to the start of the buffer, and returns its length. The buffer is at least as long as
/// the text, and every byte after the text is unchanged.
///
/// # Panics
///
/// If the buffer is [too short](crate::conditions).
#[inline(always)]
#[track_caller]
pub fn copy_to_front(text: &[u8], buffer: &mut [u8]) -> usize {
    let count = text.len();
    buffer[..count].copy_from_slice(text);
    count
}

/// Returns the first `count` bytes of the buffer as a mutable slice. The count is at most the length of
/// the buffer. What the caller then writes to the slice changes those bytes of the buffer.
///
/// # Panics
///
/// If the buffer is [too short](crate::conditions).
#[inline(always)]
#[track_caller]
pub fn front_mut(buffer: &mut [u8], count: usize) -> &mut [u8] {
    &mut buffer[..count]
}
