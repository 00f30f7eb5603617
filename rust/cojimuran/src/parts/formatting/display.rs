// Made by `strip` from crates/lexical_parts/src/formatting/display.rt. Edit that file, not this one.

//! Parts in a format string: `{}` of a part writes its text, with the sign, the width and the fill of the format. A
//! part that is not valid is an error.

use crate::num::limits::is_radix;
use crate::parts::formatting::cell::{is_short_cell, write_cell};
use crate::parts::formatting::shown::format_fill;
use crate::parts::numbers::compact::{CompactDigits, CompactFormatted};
use crate::parts::numbers::decimal::Decimal;
use crate::parts::numbers::digits::{Digits, InRadix};
use crate::parts::numbers::fixed::{Fixed, GroupedFixed, LONGEST_FIXED};
use crate::parts::numbers::formatted::Formatted;
use crate::parts::numbers::padded::{MOST_DIGITS, Padded, PaddedDigits};
use crate::parts::numbers::plus::Plus;
use crate::parts::numbers::powers_of_two::{Binary, FullHex, Hex};
use crate::parts::numbers::trimmed::TrimmedFixed;
use crate::parts::part::Part;
use crate::parts::sealed::Sealed;
use crate::write_integer::digit_count::DigitCount;
use crate::write_integer::format::STANDARD;
use crate::write_integer::radix::Radix;
use crate::write_integer::{BUFFER_SIZE, NumberFormatBuilder, ToLexical};
use core::fmt;

// Writes a text that begins with `+` as the standard library writes an integer with the option `+`.
#[inline]
fn pad_with_plus(f: &mut fmt::Formatter<'_>, text: &str) -> fmt::Result {
    let digits = &text[1..];
    if f.sign_plus() {
        return f.pad_integral(true, "", digits);
    }
    if !f.sign_aware_zero_pad() {
        return f.pad_integral(true, "", text);
    }
    f.write_str("+")?;
    let zeros = f.width().unwrap_or(0).saturating_sub(text.len());
    write_zeros(zeros, f)?;
    f.write_str(digits)
}

// Writes zeros to a formatter, whatever its options are.
#[inline]
fn write_zeros(count: usize, f: &mut fmt::Formatter<'_>) -> fmt::Result {
    for _ in 0..count {
        f.write_str("0")?;
    }
    Ok(())
}

// Returns the sign that the format asks for before a number that is not negative.
#[inline]
fn plus_of(f: &fmt::Formatter<'_>) -> &'static str {
    if f.sign_plus() { "+" } else { "" }
}

// Returns how many copies of the fill a number gets that is so many characters shorter than the width. The others are
// zeros before its digits.
#[inline]
fn fill_of_number(f: &fmt::Formatter<'_>, missing: usize) -> usize {
    if f.sign_aware_zero_pad() { 0 } else { missing }
}

// Returns how many copies of the fill precede a number.
#[inline]
fn fill_before_number(f: &fmt::Formatter<'_>, fill: usize) -> usize {
    match f.align() {
        Some(fmt::Alignment::Left) => 0,
        Some(fmt::Alignment::Center) => fill / 2,
        None | Some(fmt::Alignment::Right) => fill,
    }
}

// Writes a text as `pad_number` does, in a format with a width or another option.
#[cold]
#[inline]
fn pad_with_options(
    f: &mut fmt::Formatter<'_>,
    is_negative: bool,
    has_plus: bool,
    text: &str,
) -> fmt::Result {
    if is_short_cell(f, text) {
        write_cell(f, text)
    } else if is_negative {
        f.pad_integral(false, "", &text[1..])
    } else if has_plus {
        pad_with_plus(f, text)
    } else {
        f.pad_integral(true, "", text)
    }
}

// Writes a text, which begins with `-` if the number is negative, and otherwise with `+` if it has one, as the standard
// library writes an integer.
#[inline]
fn pad_number(
    f: &mut fmt::Formatter<'_>,
    is_negative: bool,
    has_plus: bool,
    text: &str,
) -> fmt::Result {
    if f.width().is_none() && !f.sign_plus() && !f.alternate() {
        f.write_str(text)
    } else {
        pad_with_options(f, is_negative, has_plus, text)
    }
}

impl<T: ToLexical> fmt::Display for Formatted<'_, T> {
    #[inline(always)]
    fn fmt(&self, f: &mut fmt::Formatter<'_>) -> fmt::Result {
        let mut buffer = [0; BUFFER_SIZE];
        let text = CompactFormatted(self.0, self.1).to_str(&mut buffer);
        pad_number(
            f,
            self.0.is_negative(),
            self.1.required_mantissa_sign(),
            text,
        )
    }
}

impl<T: ToLexical> fmt::Display for Decimal<T> {
    #[inline(always)]
    fn fmt(&self, f: &mut fmt::Formatter<'_>) -> fmt::Result {
        fmt::Display::fmt(&Formatted(self.0, &STANDARD), f)
    }
}

impl<T: ToLexical> fmt::Display for Plus<T> {
    #[inline(always)]
    fn fmt(&self, f: &mut fmt::Formatter<'_>) -> fmt::Result {
        let format = NumberFormatBuilder::new()
            .required_mantissa_sign(true)
            .build_strict();
        fmt::Display::fmt(&Formatted(self.0, &format), f)
    }
}

impl<T: Radix> fmt::Display for Hex<T> {
    #[inline(always)]
    fn fmt(&self, f: &mut fmt::Formatter<'_>) -> fmt::Result {
        let mut buffer = [0; 16];
        let text = Hex(self.0).to_str(&mut buffer);
        pad_number(f, false, false, text)
    }
}

impl<T: Radix> fmt::Display for Binary<T> {
    #[inline(always)]
    fn fmt(&self, f: &mut fmt::Formatter<'_>) -> fmt::Result {
        let mut buffer = [0; MOST_DIGITS];
        let text = Binary(self.0).to_str(&mut buffer);
        pad_number(f, false, false, text)
    }
}

impl<T: DigitCount + Radix> Digits<T> {
    // Returns the text, or an error if the radix is not from 2 to 36.
    #[inline(always)]
    fn text_or_error(self, buffer: &mut [u8; MOST_DIGITS]) -> Result<&str, fmt::Error> {
        if !is_radix(u64::from(self.0)) {
            return Err(fmt::Error);
        }
        let digits = CompactDigits(self.0, self.1.as_u64()).to_str(buffer);
        Ok(digits)
    }
}

impl<T: DigitCount + Radix> fmt::Display for Digits<T> {
    #[inline(always)]
    fn fmt(&self, f: &mut fmt::Formatter<'_>) -> fmt::Result {
        let mut buffer = [0; MOST_DIGITS];
        let text = Digits(self.0, self.1).text_or_error(&mut buffer)?;
        pad_number(f, false, false, text)
    }
}

impl<const RADIX: u32, T: DigitCount + Radix> fmt::Display for InRadix<RADIX, T> {
    #[inline(always)]
    fn fmt(&self, f: &mut fmt::Formatter<'_>) -> fmt::Result {
        if !is_radix(u64::from(RADIX)) {
            return Err(fmt::Error);
        }
        let mut buffer = [0; MOST_DIGITS];
        let text = InRadix::<RADIX, T>(self.0).to_str(&mut buffer);
        pad_number(f, false, false, text)
    }
}

// Writes zeros and then digits as the standard library writes an integer.
#[inline]
fn pad_zeros_and_digits(f: &mut fmt::Formatter<'_>, zeros: usize, digits: &str) -> fmt::Result {
    let plus = plus_of(f);
    let width = f.width().unwrap_or(0);
    let missing = width
        .saturating_sub(zeros)
        .saturating_sub(digits.len())
        .saturating_sub(plus.len());
    let fill = fill_of_number(f, missing);
    let before = fill_before_number(f, fill);
    format_fill(before, f)?;
    f.write_str(plus)?;
    write_zeros(missing - fill, f)?;
    write_zeros(zeros, f)?;
    f.write_str(digits)?;
    format_fill(fill - before, f)
}

impl<T: DigitCount + Radix> fmt::Display for PaddedDigits<T> {
    #[inline(always)]
    fn fmt(&self, f: &mut fmt::Formatter<'_>) -> fmt::Result {
        let mut buffer = [0; MOST_DIGITS];
        let (zeros, digits) = PaddedDigits(self.0, self.1, self.2).zeros_and_digits(&mut buffer)?;
        pad_zeros_and_digits(f, zeros, digits)
    }
}

impl<T: DigitCount + Radix> Padded<T> {
    // Returns the text, or an error if the number does not fit in the width.
    #[inline(always)]
    fn text_or_error(self, buffer: &mut [u8; MOST_DIGITS]) -> Result<&str, fmt::Error> {
        if !self.is_known_valid_and_utf8(Sealed) {
            return Err(fmt::Error);
        }
        let padded = self.to_str(buffer);
        Ok(padded)
    }
}

impl<T: DigitCount + Radix> fmt::Display for Padded<T> {
    #[inline(always)]
    fn fmt(&self, f: &mut fmt::Formatter<'_>) -> fmt::Result {
        if self.1 > MOST_DIGITS {
            return fmt::Display::fmt(&PaddedDigits(10, self.0, self.1), f);
        }
        let mut buffer = [0; MOST_DIGITS];
        let text = Padded(self.0, self.1).text_or_error(&mut buffer)?;
        pad_number(f, false, false, text)
    }
}

impl<T: DigitCount + Radix> fmt::Display for FullHex<T> {
    #[inline(always)]
    fn fmt(&self, f: &mut fmt::Formatter<'_>) -> fmt::Result {
        let mut buffer = [0; 16];
        let text = FullHex(self.0).to_str(&mut buffer);
        pad_number(f, false, false, text)
    }
}

impl<T: ToLexical> GroupedFixed<'_, T> {
    // Returns the text, or an error if there are more than 19 decimals.
    #[inline(always)]
    fn text_or_error(self, buffer: &mut [u8; LONGEST_FIXED]) -> Result<&str, fmt::Error> {
        if self.1 > 19 {
            return Err(fmt::Error);
        }
        let text = self.to_str(buffer);
        Ok(text)
    }
}

impl<T: ToLexical> fmt::Display for GroupedFixed<'_, T> {
    #[inline(always)]
    fn fmt(&self, f: &mut fmt::Formatter<'_>) -> fmt::Result {
        let mut buffer = [0; LONGEST_FIXED];
        let text = GroupedFixed(self.0, self.1, self.2).text_or_error(&mut buffer)?;
        pad_number(f, self.0.is_negative(), false, text)
    }
}

impl<T: ToLexical> fmt::Display for Fixed<T> {
    #[inline(always)]
    fn fmt(&self, f: &mut fmt::Formatter<'_>) -> fmt::Result {
        fmt::Display::fmt(&GroupedFixed(self.0, self.1, &STANDARD), f)
    }
}

impl<T: ToLexical> TrimmedFixed<T> {
    // Returns the text, or an error if there are more than 19 decimals.
    #[inline(always)]
    fn text_or_error(self, buffer: &mut [u8; LONGEST_FIXED]) -> Result<&str, fmt::Error> {
        if self.1 > 19 {
            return Err(fmt::Error);
        }
        let trimmed = self.to_str(buffer);
        Ok(trimmed)
    }
}

impl<T: ToLexical> fmt::Display for TrimmedFixed<T> {
    #[inline(always)]
    fn fmt(&self, f: &mut fmt::Formatter<'_>) -> fmt::Result {
        let mut buffer = [0; LONGEST_FIXED];
        let text = TrimmedFixed(self.0, self.1).text_or_error(&mut buffer)?;
        pad_number(f, self.0.is_negative(), false, text)
    }
}
