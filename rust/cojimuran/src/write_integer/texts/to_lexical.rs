// Made by `strip` from crates/lexical_write_integer/src/texts/to_lexical.rt. Edit that file, not this one.

//! The traits that write a number of any integer type.

use super::groups::group_digits;
use crate::num::constants::FormattedSize;
use crate::num::format::{NumberFormat, STANDARD};
use crate::num::num::LexicalInteger;
use crate::num::options::WriteOptions;
use crate::write_integer::buffer::front_mut;
use crate::write_integer::digits::count::DigitCount;

/// An integer type whose numbers are written in decimal: `u8` to `u64`, `usize`, `i8` to `i64` and `isize`.
///
/// `to_lexical` returns the text, and `write_lexical` its length.
///
/// ```
/// use cojimuran::ToLexical;
///
/// let mut buffer = [0; 20];
/// assert_eq!((-1234i64).to_lexical(&mut buffer), b"-1234");
/// ```
#[diagnostic::on_unimplemented(
    message = "`{Self}` is not an integer type that this crate writes",
    note = "it writes `u8` to `u64`, `usize`, `i8` to `i64` and `isize`",
    note = "in a line `Displayed(&value)` writes another value with `Display`"
)]
pub trait ToLexical: LexicalInteger + FormattedSize {
    /// Writes the number in decimal to the start of the buffer, and returns the length of its text: a
    /// `-` if it is below 0, and then the digits. Every byte after the text is unchanged. The buffer
    /// must have room for `DECIMAL_WIDTH` bytes, and for one further byte if there is a `-`.
    ///
    /// # Panics
    ///
    /// If the buffer is [too short](crate::conditions).
    #[inline(always)]
    #[track_caller]
    fn write_lexical(self, buffer: &mut [u8]) -> usize {
        self.write_text(buffer, &STANDARD)
    }

    /// Writes the digits of the absolute value to the start of the buffer, in the mantissa radix of the
    /// format and without groups, and returns how many there are. The buffer must have room for
    /// `DECIMAL_WIDTH` bytes in radix 10, and for the digits in any other radix.
    ///
    /// # Panics
    ///
    /// If the buffer is [too short](crate::conditions).
    #[doc(hidden)]
    fn write_magnitude(self, format: &NumberFormat, buffer: &mut [u8]) -> usize;

    /// Returns the magnitude of the number, which is its absolute value.
    #[doc(hidden)]
    #[must_use]
    fn magnitude(self) -> u64;

    /// Returns the number of digits of the magnitude in the radix, which is from 2 to 36.
    ///
    /// # Panics
    ///
    /// If the radix is not from 2 to 36.
    #[doc(hidden)]
    #[must_use]
    #[inline(always)]
    #[track_caller]
    fn magnitude_digits(self, radix: u32) -> usize {
        self.magnitude().digit_count(radix)
    }

    /// Writes the number in the format to the start of the buffer, and returns the length of its text.
    /// Every byte after the text is unchanged. The buffer must have room for the number of bytes that
    /// `ToLexicalWithOptions::required_len` returns. The other methods that write a text call this one.
    ///
    /// # Panics
    ///
    /// If the buffer is [too short](crate::conditions).
    #[inline(always)]
    #[track_caller]
    fn write_text(self, buffer: &mut [u8], format: &NumberFormat) -> usize {
        let sign = write_sign_before_digits(self, buffer, format);
        let digits = &mut buffer[sign..];
        let count = self.write_magnitude(format, digits);
        let total = group_digits(count, format, digits);
        // So rustc tests the end of a text with a sign once.
        assert!(total <= digits.len(), "the buffer is too short");
        sign + total
    }

    /// Writes the number as `write_lexical` does, under the same condition, and returns its text: a
    /// mutable slice of the first bytes of the buffer. What the caller then writes to the slice
    /// changes those bytes, and every other byte of the buffer is unchanged.
    ///
    /// rustc inlines this call, so with `opt-level = 3` each one adds 1.7 KB of code.
    ///
    /// # Panics
    ///
    /// If the buffer is [too short](crate::conditions).
    #[inline(always)]
    #[track_caller]
    fn to_lexical(self, buffer: &mut [u8]) -> &mut [u8] {
        let count = self.write_lexical(buffer);
        front_mut(buffer, count)
    }
}

/// An integer type whose numbers are written in any format.
///
/// ```
/// use cojimuran::{NumberFormatBuilder, Options, ToLexicalWithOptions};
///
/// let radix_36 = NumberFormatBuilder::from_radix(36);
/// let mut buffer = [0; 13];
/// let text = u64::MAX.to_lexical_with_options(&mut buffer, &radix_36, &Options::new());
/// assert_eq!(text, b"3W5E11264SGSF");
/// ```
#[diagnostic::on_unimplemented(
    message = "`{Self}` is not an integer type that this crate writes",
    note = "it writes `u8` to `u64`, `usize`, `i8` to `i64` and `isize`",
    note = "in a line `Displayed(&value)` writes another value with `Display`"
)]
pub trait ToLexicalWithOptions: ToLexical {
    /// The type of the options. Options have no effect yet.
    type Options: WriteOptions;

    /// Writes the number in the format to the start of the buffer, and returns the length of its text:
    /// the sign, and then the digits in the mantissa radix, in the groups of the format. Every byte
    /// after the text is unchanged. The options have no effect.
    ///
    /// The buffer must have room for the number of bytes that `required_len` returns, which is enough
    /// for the sign, the digits and the separators between their groups. In radix 10 it is enough for
    /// `DECIMAL_WIDTH` digits, even if the number has fewer.
    ///
    /// # Panics
    ///
    /// If the buffer is [too short](crate::conditions).
    #[inline(always)]
    #[track_caller]
    fn write_lexical_with_options(
        self,
        buffer: &mut [u8],
        format: &NumberFormat,
        _options: &Self::Options,
    ) -> usize {
        // The options have no effect.
        self.write_text(buffer, format)
    }

    /// Returns the required length: `write_lexical_with_options` requires a buffer of at least this length
    /// for the number. It is at most [`BUFFER_SIZE`](crate::BUFFER_SIZE).
    #[must_use]
    #[inline(always)]
    #[track_caller]
    fn required_len(self, format: &NumberFormat) -> usize {
        let radix = format.mantissa_radix();
        let digits = if radix == 10 {
            Self::DECIMAL_WIDTH
        } else {
            self.magnitude_digits(radix)
        };
        sign_len(self, format) + format.grouped_len(digits)
    }

    /// Writes the number as `write_lexical_with_options` does, under the same condition, and returns
    /// its text: a mutable slice of the first bytes of the buffer. What the caller then writes to the
    /// slice changes those bytes, and every other byte of the buffer is unchanged. Without its
    /// separators the text is that in the format without groups.
    ///
    /// # Panics
    ///
    /// If the buffer is [too short](crate::conditions).
    #[inline(always)]
    #[track_caller]
    fn to_lexical_with_options<'a>(
        self,
        buffer: &'a mut [u8],
        format: &NumberFormat,
        options: &Self::Options,
    ) -> &'a mut [u8] {
        let count = self.write_lexical_with_options(buffer, format, options);
        front_mut(buffer, count)
    }
}

// Returns the character of the sign: `-` for a negative number, and `+` for another one if it is required. For a number
// without a sign it is any character.
#[inline(always)]
#[track_caller]
fn sign_character(is_negative: bool, is_required: bool) -> u8 {
    match (is_required, is_negative) {
        (true, false) => b'+',
        _ => b'-',
    }
}

// Writes the sign as `write_sign` does. If there is no sign, the first byte may change: the first digit is then written
// to it.
#[inline(always)]
#[track_caller]
fn write_sign_before_digits<T: LexicalInteger>(
    number: T,
    buffer: &mut [u8],
    format: &NumberFormat,
) -> usize {
    let is_negative = number.is_negative();
    let is_required = format.required_mantissa_sign();
    // A signed type has the byte written in any case, since a branch on the sign is often mispredicted.
    if T::IS_SIGNED || is_required {
        buffer[0] = sign_character(is_negative, is_required);
    }
    // By a call of its own: from `is_negative` LLVM would choose between two addresses of the digits.
    number.sign_bit() | usize::from(is_required)
}

/// Returns the length of the sign of the number in the format, 0 or 1.
///
/// ```
/// use cojimuran::{format::STANDARD, sign_len};
///
/// assert_eq!((sign_len(-5, &STANDARD), sign_len(5, &STANDARD)), (1, 0));
/// ```
#[must_use]
#[inline(always)]
#[track_caller]
pub fn sign_len<T: LexicalInteger>(number: T, format: &NumberFormat) -> usize {
    usize::from(number.is_negative() || format.required_mantissa_sign())
}

/// Writes the sign of the number to the start of the buffer, and returns the length of the sign, 0 or 1.
///
/// If the number has no sign in the format, the buffer is unchanged. Otherwise the buffer must not be empty.
///
/// ```
/// use cojimuran::{format::STANDARD, write_sign};
///
/// let mut buffer = [0; 1];
/// assert_eq!((write_sign(-5, &mut buffer, &STANDARD), buffer), (1, *b"-"));
/// ```
///
/// # Panics
///
/// If the buffer is [too short](crate::conditions).
#[inline(always)]
#[track_caller]
pub fn write_sign<T: LexicalInteger>(number: T, buffer: &mut [u8], format: &NumberFormat) -> usize {
    let is_negative = number.is_negative();
    let is_required = format.required_mantissa_sign();
    // If there is no sign, the byte is written back.
    let first = buffer[0];
    buffer[0] = if is_negative {
        b'-'
    } else if is_required {
        b'+'
    } else {
        first
    };
    (is_negative | is_required) as usize
}
