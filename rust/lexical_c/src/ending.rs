// Made by `strip` from crates/lexical_c/src/ending.rt. Edit that file, not this one.

//! What a caller may still want of a text that is written: zeros up to a width, and a terminating 0.

// Returns the length of the sign with which a text begins: 1 for `-` or `+`, and otherwise 0.
#[inline]
fn length_of_sign(text: &[u8]) -> usize {
    if text[0] == b'-' || text[0] == b'+' {
        1
    } else {
        0
    }
}

/// Inserts zeros into the text of `count` bytes at the start of the buffer, after its sign if it has one, so that it
/// has at least `width` bytes, and returns its length. Returns 0 and leaves the buffer unchanged if `count` is 0, or if
/// the buffer is shorter than `count` or `width`.
#[inline]
pub fn lexical_pad(count: usize, width: usize, buffer: &mut [u8]) -> usize {
    if count == 0 || count > buffer.len() || width > buffer.len() {
        return 0;
    }
    if width <= count {
        return count;
    }
    let sign = length_of_sign(&buffer[..count]);
    let start = sign + (width - count);
    buffer.copy_within(sign..count, start);
    buffer[sign..start].fill(b'0');
    width
}

/// Writes a 0 after the text of `count` bytes at the start of the buffer, and returns `count`. If the buffer has no
/// room for both, writes a 0 to its start, so that it holds an empty string, and returns 0.
#[inline]
pub fn lexical_terminate(count: usize, buffer: &mut [u8]) -> usize {
    let end = if count < buffer.len() { count } else { 0 };
    if end < buffer.len() {
        buffer[end] = 0;
    }
    end
}
