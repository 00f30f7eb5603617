// Made by `strip` from crates/lexical_c/src/plain.rt. Edit that file, not this one.

//! Writes a number in a format without groups and required signs. The buffer is long enough for every number of the
//! type, or at least for every number that has as many bits as this one.

use crate::format::CFormat;
use crate::integer::WideInteger;
use cojimuran::LexicalInteger;
use cojimuran::digit_count::fast_log2;
use cojimuran::format::STANDARD;
use cojimuran::format::is_radix;
use cojimuran::{NumberFormat, NumberFormatBuilder, ToLexical, sign_len};

/// Returns whether every field but the radix, the mark and lowercase is 0. No field is tested by itself, so
/// that one branch is enough.
#[inline(always)]
pub fn has_only_radix_and_case(format: &CFormat) -> bool {
    (format.required_sign == 0)
        & (format.group_size == 0)
        & (format.reserved_1 == 0)
        & (format.reserved_2 == 0)
}

/// Returns the format of this radix without a required sign and groups if the radix is valid and not 10, and a buffer
/// of `room` bytes is enough for every number of the type in each radix. Otherwise returns `None`.
// The room is tested first, because LLVM then makes a branch of each test.
#[inline(always)]
pub fn fitting_format<T: LexicalInteger>(radix: u32, room: usize) -> Option<NumberFormat> {
    if T::BITS + usize::from(T::IS_SIGNED) <= room && radix != 10 && is_radix(u64::from(radix)) {
        Some(format_in(radix))
    } else {
        None
    }
}

/// Returns the format of this radix without a required sign and groups if the radix is valid and not 10, and a buffer
/// of `room` bytes is enough for each number whose highest bit is that of this number. Otherwise returns `None`.
#[inline(always)]
pub fn format_by_bits<T: WideInteger>(value: T, radix: u32, room: usize) -> Option<NumberFormat> {
    if radix == 10 || !is_radix(u64::from(radix)) {
        return None;
    }
    let digits = room.saturating_sub(sign_len(value, &STANDARD));
    // A digit has at least as many bits as the logarithm of the radix, and no number has more than 64.
    if digits.min(64) * fast_log2(radix) > fast_log2(value.magnitude()) {
        Some(format_in(radix))
    } else {
        None
    }
}

// Returns the format of a radix without a required sign and groups.
#[inline(always)]
fn format_in(radix: u32) -> NumberFormat {
    let builder = NumberFormatBuilder::new().mantissa_radix(radix as u8);
    builder.build_strict()
}

// Sets the bit of value 32 in each byte of a text.
#[inline(always)]
fn set_bit_in_each(text: &mut [u8]) {
    for byte in text.iter_mut() {
        *byte |= 32;
    }
}

// Sets the bit in the first `SIZE` bytes of a text and in the last `SIZE`, which together are all bytes. If they
// overlap, it is set twice. A compiler makes one operation of a constant number of bytes.
#[inline(always)]
fn set_bit_in_halves<const SIZE: usize>(text: &mut [u8]) {
    set_bit_in_each(&mut text[..SIZE]);
    let start = text.len() - SIZE;
    set_bit_in_each(&mut text[start..]);
}

/// Sets the bit of value 32 in each byte of a text. Of the bytes of digits and signs only uppercase letters lack this
/// bit, which is all that distinguishes them from lowercase letters.
#[inline(always)]
pub fn set_lowercase_bit(text: &mut [u8]) {
    match text.len() {
        0 => {}
        1..=2 => set_bit_in_halves::<1>(text),
        3..=4 => set_bit_in_halves::<2>(text),
        5..=8 => set_bit_in_halves::<4>(text),
        9..=16 => set_bit_in_halves::<8>(text),
        _ => set_bit_in_each(text),
    }
}

/// Writes a number to the start of the buffer, and returns the length of the text. The format must have
/// no required sign and no groups, and the buffer must have the length that the writer of the number requires.
#[inline(always)]
pub fn write_plain<T: ToLexical>(value: T, format: &NumberFormat, buffer: &mut [u8]) -> usize {
    if !T::IS_SIGNED {
        return value.write_magnitude(format, buffer);
    }
    // Without a sign the first digit is written over it.
    buffer[0] = b'-';
    let sign = sign_len(value, format);
    sign + value.write_magnitude(format, &mut buffer[sign..])
}

/// Writes a number in the case that the format requests, as `write_plain` does. The format must have only a radix and a
/// case, and `plain` is the same without the case.
#[inline(always)]
pub fn write_in_case<T: WideInteger>(
    value: T,
    plain: &NumberFormat,
    format: &CFormat,
    buffer: &mut [u8],
) -> usize {
    let count = write_plain(value, plain, buffer);
    if format.lowercase != 0 {
        set_lowercase_bit(&mut buffer[..count]);
    }
    count
}
