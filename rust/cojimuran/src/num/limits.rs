// Made by `strip` from crates/lexical_num/src/limits.rt. Edit that file, not this one.

//! The limits of a format: which numbers are a radix, a group size or a mark. `NumberFormatBuilder::build`
//! asks here, and so can a program that reads such a number.

/// Returns whether the radix is from 2 to 36, so that each of its digits has a character.
#[must_use]
#[inline]
pub const fn is_radix(radix: u64) -> bool {
    2 <= radix && radix <= 36
}

/// Returns whether a group can have this number of digits: from 1 to 64.
#[must_use]
#[inline]
pub const fn is_group_size(size: u64) -> bool {
    1 <= size && size <= 64
}

/// Returns whether the byte can separate two groups: a character of printable ASCII, which are the
/// bytes from 32 to 126, that is not a letter, a digit, `+` or `-`.
#[must_use]
#[inline]
pub const fn is_mark(byte: u64) -> bool {
    32 <= byte
        && byte <= 126
        && !(byte as u8).is_ascii_alphanumeric()
        && byte != b'+' as u64
        && byte != b'-' as u64
}
