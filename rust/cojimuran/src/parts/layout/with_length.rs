// Made by `strip` from crates/lexical_parts/src/layout/with_length.rt. Edit that file, not this one.

//! A text with its length before it.

use crate::parts::part::Part;
use crate::write_integer::padded::write_padded;

/// Writes the length of a part plus `extra` in `width` digits of the radix, and then the part.
///
/// Returns the length of the part alone, without the digits before it. Later bytes are unchanged. The part must be
/// valid, its room plus `extra` below `radix^width`, and the buffer at least `width` plus the room bytes long.
///
/// ```
/// use cojimuran::write_with_length;
///
/// // The length 5 plus 4, in four digits of radix 16, and then the part.
/// let mut buffer = [0; 9];
/// assert_eq!(write_with_length("done\n", 16, 4, 4, &mut buffer), 5);
/// assert_eq!(buffer, *b"0009done\n");
/// ```
///
/// # Panics
///
/// If the part is not valid, or if the radix is not from 2 to 36, or if the buffer is [too short](crate::conditions),
/// or if the length has more digits than `width`, or if the length and `extra` together are above `usize::MAX`.
#[inline(always)]
#[track_caller]
pub fn write_with_length<P: Part>(
    part: P,
    radix: u32,
    width: usize,
    extra: usize,
    buffer: &mut [u8],
) -> usize {
    let count = part.write_to(&mut buffer[width..]);
    assert!(
        count <= usize::MAX - extra,
        "the length and `extra` together are above usize::MAX"
    );
    write_padded(extra + count, radix, &mut buffer[..width]);
    count
}
