// Made by `strip` from crates/lexical_parts/src/show.rt. Edit that file, not this one.

//! Writing a part to any writer, as `{}` does.

use crate::parts::part::Part;
use core::fmt;

// The largest room of a part that is written in one piece.
pub(crate) const MOST_IN_ONE_PIECE: usize = 256;

/// Adds `write_pieces`, which writes a part to a `String` or any other writer, and lets
/// [`Shown(part)`](super::Shown) be used in a format string.
///
/// All parts of this crate implement it, and so do tuples, columns and [`Joined`](super::Joined) of them. Many
/// of them, such as `Hex`, also have `Display`, so you can write them in a format string without `Shown`.
///
/// If you implement this trait for a part of your own, the part works in `write_pieces` and in `Shown`, alone and in
/// tuples. You must define `is_showable`, and `write_pieces` too if the room of the part can be above 256 bytes.
///
/// ```
/// use cojimuran::{Hex, Show, Shown};
///
/// let mut text = String::new();
/// assert!(("id=", 7u8, " flags=0x", Hex(255u16)).write_pieces(&mut text).is_ok());
/// assert_eq!(text.as_str(), "id=7 flags=0xFF");
/// assert_eq!(Shown(("id=", 7u8)).to_string(), "id=7");
/// ```
#[diagnostic::on_unimplemented(
    message = "`{Self}` is not a part with `Show`",
    note = "pass a `String` as `string.as_str()`, a list as `Joined(&list, separator)`, and bytes as `Bytes(bytes)`",
    note = "pass another value with `Display` as `Displayed(&value)`, and one with `Debug` by `format_args!` in it",
    note = "a tuple has 2 to 12 members; a part of your own needs `impl Part` and `impl Show`"
)]
pub trait Show: Part {
    /// Returns whether the part is valid and its text is UTF-8, as `to_str` requires. If it returns `false`, `{}` and
    /// `write_pieces` of the part return an error. For a part of your own that is always valid, and whose text is
    /// always UTF-8, return `true`.
    #[must_use]
    fn is_showable(self) -> bool;

    /// Writes the text to a writer, such as a `String`, in one piece or in several.
    ///
    /// If you do not define this method, it writes the text in one piece by `to_str`, for which the room must be at
    /// most 256 bytes. A part that can be longer calls this method of the parts that it consists of, one after another.
    /// So does a part with a `Digits`, a `PaddedDigits` or a `Formatted`, because `write_pieces` of these needs little
    /// code for a radix that is known only at run time, and their `to_str` needs [much](crate::costs).
    ///
    /// # Errors
    ///
    /// Returns the error of the writer, or an error if the part is not valid or its text is not UTF-8. For a part of
    /// your own it also returns an error if its room is above 256 bytes and you do not define this method. A column or
    /// a `ZeroPadded` also returns an error if the part in it does not write as many bytes each time. If this method
    /// returns an error, the writer may have a part of the text.
    #[inline(always)]
    #[track_caller]
    fn write_pieces<O: fmt::Write>(self, out: &mut O) -> fmt::Result {
        if !self.is_showable() {
            return Err(fmt::Error);
        }
        write_in_one_piece(self, out)
    }
}

// Writes the text to a writer with one call, or returns an error if the room is above 256 bytes.
#[inline(always)]
#[track_caller]
pub(crate) fn write_in_one_piece<P: Part, O: fmt::Write>(part: P, out: &mut O) -> fmt::Result {
    if part.room() > MOST_IN_ONE_PIECE {
        return Err(fmt::Error);
    }
    out.write_str(part.to_str(&mut [0; MOST_IN_ONE_PIECE]))
}
