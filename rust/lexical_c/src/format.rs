// Made by `strip` from crates/lexical_c/src/format.rt. Edit that file, not this one.

//! The format that a C caller passes, and the check whether it is valid.

use cojimuran::format::{is_group_size, is_mark, is_radix};
use cojimuran::{NumberFormat, NumberFormatBuilder};

/// A format as C passes it, `struct lexical_format` of the header. Each field may hold any value. If
/// `required_sign` is not 0, a `+` is written before numbers that are not negative. If `group_size` is
/// not 0, the digits are in groups of that size, and the mark is the separator between them. If
/// `lowercase` is not 0, digits above 9 are lowercase letters. The reserved fields must be 0.
#[repr(C)]
pub struct CFormat {
    pub radix: u32,
    pub required_sign: u32,
    pub group_size: u32,
    pub mark: u32,
    pub lowercase: u32,
    pub reserved_1: u32,
    pub reserved_2: u32,
}

/// The error that the radix is not from 2 to 36.
pub const INVALID_RADIX: u32 = 1;
/// The error that the group size is above 64.
pub const INVALID_GROUP_SIZE: u32 = 2;
/// The error that the separator between groups is not printable ASCII, or is a letter, a digit, `+` or
/// `-`.
pub const INVALID_GROUP_MARK: u32 = 3;
/// The error that a reserved field is not 0.
pub const INVALID_RESERVED: u32 = 4;

/// Returns 0 if the format is valid, and otherwise the error of its first invalid field. The radix is
/// checked first, then the group size, then the mark, then the reserved fields.
#[unsafe(no_mangle)]
pub extern "C" fn lexical_check_format(format: &CFormat) -> u32 {
    if !is_radix(u64::from(format.radix)) {
        INVALID_RADIX
    } else if format.group_size != 0 && !is_group_size(u64::from(format.group_size)) {
        INVALID_GROUP_SIZE
    } else if format.group_size != 0 && !is_mark(u64::from(format.mark)) {
        INVALID_GROUP_MARK
    } else if format.reserved_1 != 0 || format.reserved_2 != 0 {
        INVALID_RESERVED
    } else {
        0
    }
}

/// Returns the format with these fields, or `None` if they are not valid.
#[inline]
pub fn number_format(format: &CFormat) -> Option<NumberFormat> {
    if lexical_check_format(format) != 0 {
        return None;
    }
    let builder = NumberFormatBuilder::new()
        .mantissa_radix(format.radix as u8)
        .required_mantissa_sign(format.required_sign != 0);
    if format.group_size == 0 {
        Some(builder.build_strict())
    } else {
        let builder = builder.digit_grouping(format.group_size as u8, format.mark as u8);
        Some(builder.build_strict())
    }
}
