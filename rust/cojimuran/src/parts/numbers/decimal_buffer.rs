// Made by `strip` from crates/lexical_parts/src/numbers/decimal_buffer.rt. Edit that file, not this one.

//! The text of a number as a `&str`, in a buffer of its own.

use crate::parts::numbers::decimal::Decimal;
use crate::parts::part::Part;
use crate::write_integer::ToLexical;

/// A buffer for one number in decimal. It is long enough for every number of every type that this crate
/// writes.
///
/// ```
/// use cojimuran::Buffer;
///
/// let mut buffer = Buffer::new();
/// assert_eq!(buffer.format(-1234i32), "-1234");
/// assert_eq!(buffer.format(u64::MAX), "18446744073709551615");
/// ```
#[derive(Debug, Clone, Copy)]
pub struct Buffer {
    bytes: [u8; 20],
}

impl Buffer {
    /// Returns a buffer of 20 bytes on the stack. It costs nearly nothing to make one for each number.
    #[must_use]
    #[inline]
    pub fn new() -> Buffer {
        Buffer { bytes: [0; 20] }
    }

    /// Returns the number in decimal, with a `-` if it is negative.
    #[inline(never)]
    pub fn format<T: ToLexical>(&mut self, number: T) -> &str {
        Decimal(number).to_str(&mut self.bytes)
    }
}

impl Default for Buffer {
    #[inline]
    fn default() -> Buffer {
        Buffer::new()
    }
}
