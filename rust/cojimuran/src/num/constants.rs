// Made by `strip` from crates/lexical_num/src/constants.rt. Edit that file, not this one.

//! Buffer lengths that are enough for the text of a number.

use crate::num::num::LexicalInteger;

/// The length of a buffer that is long enough for every number of every type in every format.
///
/// ```
/// use cojimuran::{BUFFER_SIZE, ToLexical};
///
/// let mut buffer = [0; BUFFER_SIZE];
/// assert_eq!(i64::MIN.to_lexical(&mut buffer), b"-9223372036854775808");
/// ```
pub const BUFFER_SIZE: usize = 128;

/// An integer type with two buffer sizes, each enough for every number of the type: one for decimal, and one for other
/// radices. `WriteOptions::buffer_size` returns the right one for a format.
///
/// ```
/// use cojimuran::{FormattedSize, ToLexical};
///
/// let mut buffer = [0; u64::FORMATTED_SIZE_DECIMAL];
/// assert_eq!(u64::MAX.to_lexical(&mut buffer), b"18446744073709551615");
/// ```
#[diagnostic::on_unimplemented(
    message = "`{Self}` is not an integer type that this crate writes",
    note = "it writes `u8` to `u64`, `usize`, `i8` to `i64` and `isize`",
    note = "in a line `Displayed(&value)` writes another value with `Display`"
)]
pub trait FormattedSize: LexicalInteger {
    /// The buffer length in a radix other than 10, with a sign and with groups.
    const FORMATTED_SIZE: usize;

    /// The buffer length in decimal, with a `-` but without a `+` and without groups.
    const FORMATTED_SIZE_DECIMAL: usize;
}

impl FormattedSize for u8 {
    const FORMATTED_SIZE: usize = 16;

    const FORMATTED_SIZE_DECIMAL: usize = 3;
}

impl FormattedSize for u16 {
    const FORMATTED_SIZE: usize = 32;

    const FORMATTED_SIZE_DECIMAL: usize = 5;
}

impl FormattedSize for u32 {
    const FORMATTED_SIZE: usize = 64;

    const FORMATTED_SIZE_DECIMAL: usize = 10;
}

impl FormattedSize for u64 {
    const FORMATTED_SIZE: usize = 128;

    const FORMATTED_SIZE_DECIMAL: usize = 20;
}

impl FormattedSize for usize {
    const FORMATTED_SIZE: usize = 128;

    const FORMATTED_SIZE_DECIMAL: usize = 20;
}

impl FormattedSize for i8 {
    const FORMATTED_SIZE: usize = 16;

    const FORMATTED_SIZE_DECIMAL: usize = 4;
}

impl FormattedSize for i16 {
    const FORMATTED_SIZE: usize = 32;

    const FORMATTED_SIZE_DECIMAL: usize = 6;
}

impl FormattedSize for i32 {
    const FORMATTED_SIZE: usize = 64;

    const FORMATTED_SIZE_DECIMAL: usize = 11;
}

impl FormattedSize for i64 {
    const FORMATTED_SIZE: usize = 128;

    const FORMATTED_SIZE_DECIMAL: usize = 20;
}

impl FormattedSize for isize {
    const FORMATTED_SIZE: usize = 128;

    const FORMATTED_SIZE_DECIMAL: usize = 20;
}
