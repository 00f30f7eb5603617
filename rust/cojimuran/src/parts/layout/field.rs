// Made by `strip` from crates/lexical_parts/src/layout/field.rt. Edit that file, not this one.

//! Texts at fixed places of a buffer, such as the header of a file.

use crate::parts::part::Part;

/// Writes a part whose text has exactly `count` bytes to `buffer[index..index + count]`.
///
/// No other byte of the buffer changes, unless the call panics. The part must be valid, its room must be at most
/// `count`, and the buffer must have these bytes. So use it for parts of a constant width, such as `Padded`,
/// `PaddedDigits`, `FullHex`, a column or a `&str`.
///
/// ```
/// use cojimuran::{PaddedDigits, write_field};
///
/// let mut header = *b"size:....;";
/// write_field(PaddedDigits(8, 420u16, 4), 5, 4, &mut header);
/// assert_eq!(header, *b"size:0644;");
/// ```
///
/// # Panics
///
/// If the part is not valid, or if the text does not have `count` bytes, or if the buffer is
/// [too short](crate::conditions).
#[inline(always)]
#[track_caller]
pub fn write_field<P: Part>(part: P, index: usize, count: usize, buffer: &mut [u8]) {
    let end = part.write_at(index, buffer);
    // In Rust nothing else refuses a text of another length.
    assert!(end == index + count, "the text does not have `count` bytes");
}
