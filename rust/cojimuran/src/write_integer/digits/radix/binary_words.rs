// Made by `strip` from crates/lexical_write_integer/src/digits/radix/binary_words.rt. Edit that file, not this one.

//! Writing binary digits, eight at a time, as the bytes of a word.

use super::count_then_write::count_of_nonzero;
use super::steps::remove_four;

// Writes the eight binary digits of a number below 256 at index `at`. Each byte of the product is the number, of which
// the mask keeps another bit. The sum carries a bit that is set to bit 7 of its byte, and no further.
#[inline]
fn write_eight_bits(bits: u64, buffer: &mut [u8], at: usize) {
    let kept = (bits * 0x0101_0101_0101_0101) & 0x0102_0408_1020_4080;
    let carried = kept + 0x7f7f_7f7f_7f7f_7f7f;
    let characters = ((carried >> 7) & 0x0101_0101_0101_0101 | 0x3030_3030_3030_3030).to_le_bytes();
    buffer[at..at + 8].copy_from_slice(&characters);
}

// Returns the number without its last eight digits.
#[inline]
fn remove_eight(value: u64) -> u64 {
    let first = remove_four::<2>(value);
    remove_four::<2>(first)
}

// Writes a number of more than eight binary digits, from the last: eight per iteration while more than 16 are left. Of
// those, the first are written with zeros after them, eight characters in total, and then the last eight.
#[inline]
pub(super) fn write_binary(value: u64, buffer: &mut [u8]) -> usize {
    let count = count_of_nonzero(value, 2);
    let mut left = value;
    let mut at = count;
    while at > 16 {
        at -= 8;
        write_eight_bits(left % 256, buffer, at);
        left = remove_eight(left);
    }
    let rest = remove_eight(left);
    // rustc tests the end of these bytes once.
    let written = &mut buffer[..at];
    write_eight_bits(rest << (16 - at), written, 0);
    write_eight_bits(left % 256, written, at - 8);
    count
}
