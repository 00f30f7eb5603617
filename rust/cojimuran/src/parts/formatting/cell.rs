// Made by `strip` from crates/lexical_parts/src/formatting/cell.rt. Edit that file, not this one.

//! A number in a column of a format string, such as `{:>20}`: its text with the fill before it, in one piece. The
//! standard library writes each character of the fill by itself.

use crate::parts::layout::column::Right;
use crate::parts::part::Part;
use core::fmt;

// Returns whether the format has the text, with the sign that it has, at the right of a column of at most 128
// characters of which each is a byte.
#[inline]
pub(crate) fn is_short_cell(f: &fmt::Formatter<'_>, text: &str) -> bool {
    let is_at_right = matches!(f.align(), None | Some(fmt::Alignment::Right));
    let has_only_ascii_fill = f.fill().is_ascii() && !f.sign_aware_zero_pad() && !f.sign_plus();
    is_at_right && has_only_ascii_fill && f.width().unwrap_or(0) <= 128 && text.len() <= 128
}

// Writes the text at the right of the column, as the standard library writes an integer.
#[inline]
pub(crate) fn write_cell(f: &mut fmt::Formatter<'_>, text: &str) -> fmt::Result {
    let mut buffer = [0; 128];
    let width = f.width().unwrap_or(0);
    let fill = f.fill() as u8;
    f.write_str(Right(text, width, fill).to_str(&mut buffer))
}
