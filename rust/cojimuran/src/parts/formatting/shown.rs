// Made by `strip` from crates/lexical_parts/src/formatting/shown.rt. Edit that file, not this one.

//! Parts in a format string with the options of a `&str`: those whose text is not that of one number, and `Scientific`.

use crate::parts::formatting::cut::{Nowhere, write_first_chars};
use crate::parts::layout::column::{Center, Left, Right};
use crate::parts::layout::joined::Joined;
use crate::parts::layout::zero_padded::ZeroPadded;
use crate::parts::numbers::scientific::Scientific;
use crate::parts::show::Show;
use crate::parts::texts::hex_bytes::HexBytes;
use crate::parts::texts::lower::Lower;
use crate::parts::texts::option::OrElse;
use crate::write_integer::ToLexical;
use core::fmt;

/// A tuple of parts, or another part, in a format string.
///
/// A width, a fill and a precision work as for a `&str`, even if the part is a number: `{:3}` of `Shown(5u8)` writes
/// `5` and two spaces, and `{:03}` does the same. For zeros write the number without `Shown`, such as `{:03}` of
/// `Hex(5u8)`.
///
/// # Errors
///
/// `fmt` returns an error, so `format!` and `println!` panic, if a part in it is not valid, or if it contains a byte
/// that `to_str` refuses. It also returns the error of the writer behind the format string, of the `Display` of a value
/// in a `Displayed`, and of `write_pieces` of a part of your own.
///
/// ```
/// use cojimuran::{Hex, Shown};
///
/// let line = ("id=", 7u8, " flags=0x", Hex(255u16));
/// assert_eq!(Shown(line).to_string(), "id=7 flags=0xFF");
/// ```
#[derive(Clone, Copy, PartialEq, Eq, Hash, Debug)]
pub struct Shown<P>(pub P);

// A formatter as a writer, whatever its options are.
struct Through<'a, 'b> {
    f: &'a mut fmt::Formatter<'b>,
}

impl fmt::Write for Through<'_, '_> {
    #[inline]
    fn write_str(&mut self, text: &str) -> fmt::Result {
        self.f.write_str(text)
    }
}

// Writes the text to a formatter, whatever its options are.
#[inline]
fn write_through<P: Show>(part: P, f: &mut fmt::Formatter<'_>) -> fmt::Result {
    let mut through = Through { f };
    let result = part.write_pieces(&mut through);
    // No effect at run time, but by this use it is known what the formatter is now.
    let Through { f } = through;
    let _ = &*f;
    result
}

impl<P: Show> Shown<P> {
    // Writes the text with the options of the formatter, or returns an error if the part is not valid.
    #[inline]
    fn show(self, f: &mut fmt::Formatter<'_>) -> fmt::Result {
        let part = self.0;
        if !part.is_showable() {
            return Err(fmt::Error);
        }
        if is_bare(f) {
            write_through(part, f)
        } else {
            pad_pieces(part, f)
        }
    }
}

// Returns whether the format has no width and no precision.
#[inline]
fn is_bare(f: &fmt::Formatter<'_>) -> bool {
    let width = f.width();
    let precision = f.precision();
    width.is_none() && precision.is_none()
}

// Writes the text with the width and the precision of the formatter, as std writes a `&str`. The text is written twice,
// the first time to count its characters. It is cold: most formats have neither.
#[cold]
#[inline]
fn pad_pieces<P: Show>(part: P, f: &mut fmt::Formatter<'_>) -> fmt::Result {
    let most = f.precision().unwrap_or(usize::MAX);
    let count = most - write_first_chars(part, most, &mut Nowhere)?;
    let padding = f.width().unwrap_or(0).saturating_sub(count);
    let before = padding_before(f, padding);
    format_fill(before, f)?;
    let left = write_cut(part, most, f)?;
    // A part of a caller may have another text each time.
    if most.saturating_sub(left) != count {
        return Err(fmt::Error);
    }
    format_fill(padding - before, f)
}

// Writes the first `most` characters of the text, and returns how many fewer it has.
#[inline]
fn write_cut<P: Show>(
    part: P,
    most: usize,
    f: &mut fmt::Formatter<'_>,
) -> Result<usize, fmt::Error> {
    let mut through = Through { f };
    let left = write_first_chars(part, most, &mut through)?;
    // No effect at run time, but by this use it is known what the formatter is now.
    let Through { f } = through;
    let _ = &*f;
    Ok(left)
}

// Returns how much of the padding of a `&str` precedes it.
#[inline]
fn padding_before(f: &fmt::Formatter<'_>, padding: usize) -> usize {
    match f.align() {
        None | Some(fmt::Alignment::Left) => 0,
        Some(fmt::Alignment::Center) => padding / 2,
        Some(fmt::Alignment::Right) => padding,
    }
}

// Writes copies of the fill of the formatter.
#[inline]
pub(crate) fn format_fill(count: usize, f: &mut fmt::Formatter<'_>) -> fmt::Result {
    let mut array = [0; 4];
    let fill: &str = f.fill().encode_utf8(&mut array);
    for _ in 0..count {
        f.write_str(fill)?;
    }
    Ok(())
}

impl<P: Show> fmt::Display for Shown<P> {
    #[inline(always)]
    fn fmt(&self, f: &mut fmt::Formatter<'_>) -> fmt::Result {
        Shown(self.0).show(f)
    }
}

impl<P: Show> fmt::Display for Lower<P> {
    #[inline(always)]
    fn fmt(&self, f: &mut fmt::Formatter<'_>) -> fmt::Result {
        Shown(*self).show(f)
    }
}

impl<P: Show> fmt::Display for ZeroPadded<P> {
    #[inline(always)]
    fn fmt(&self, f: &mut fmt::Formatter<'_>) -> fmt::Result {
        Shown(*self).show(f)
    }
}

impl<P: Show> fmt::Display for Left<P> {
    #[inline(always)]
    fn fmt(&self, f: &mut fmt::Formatter<'_>) -> fmt::Result {
        Shown(*self).show(f)
    }
}

impl<P: Show> fmt::Display for Right<P> {
    #[inline(always)]
    fn fmt(&self, f: &mut fmt::Formatter<'_>) -> fmt::Result {
        Shown(*self).show(f)
    }
}

impl<P: Show> fmt::Display for Center<P> {
    #[inline(always)]
    fn fmt(&self, f: &mut fmt::Formatter<'_>) -> fmt::Result {
        Shown(*self).show(f)
    }
}

impl<P: Show> fmt::Display for Joined<'_, P> {
    #[inline(always)]
    fn fmt(&self, f: &mut fmt::Formatter<'_>) -> fmt::Result {
        Shown(Joined(self.0, self.1)).show(f)
    }
}

impl<P: Show, Q: Show> fmt::Display for OrElse<P, Q> {
    #[inline(always)]
    fn fmt(&self, f: &mut fmt::Formatter<'_>) -> fmt::Result {
        Shown(*self).show(f)
    }
}

impl<T: ToLexical> fmt::Display for Scientific<T> {
    #[inline(always)]
    fn fmt(&self, f: &mut fmt::Formatter<'_>) -> fmt::Result {
        Shown(*self).show(f)
    }
}

impl fmt::Display for HexBytes<'_> {
    #[inline(always)]
    fn fmt(&self, f: &mut fmt::Formatter<'_>) -> fmt::Result {
        Shown(*self).show(f)
    }
}
