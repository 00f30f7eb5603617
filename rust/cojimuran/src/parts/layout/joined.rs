// Made by `strip` from crates/lexical_parts/src/layout/joined.rt. Edit that file, not this one.

//! The parts of a slice, with a separator between adjacent parts.

use crate::parts::part::Part;
use crate::parts::sealed::Sealed;
use crate::parts::show::Show;
use core::fmt;

// Returns what precedes the part at the index.
#[inline(always)]
#[track_caller]
pub(crate) fn separator_before(index: usize, separator: &str) -> &str {
    if index == 0 { "" } else { separator }
}

// Writes what precedes the part at the index, which is nothing before the first part and otherwise the separator, and
// then the part. Returns their length.
#[inline(always)]
#[track_caller]
pub(crate) fn write_next<P: Part>(
    index: usize,
    separator: &str,
    part: P,
    buffer: &mut [u8],
) -> usize {
    // A branch, since a copy of a length that is not known is a call of memcpy.
    if index == 0 {
        part.write_to(buffer)
    } else {
        let start = separator.write_to(buffer);
        start + part.write_to(&mut buffer[start..])
    }
}

/// The parts of a slice, with a separator between adjacent parts: `Joined(&[-1, 20], ", ")` writes `-1, 20`.
///
/// An array of other values becomes parts by `map`: `Joined(&[10u8, 2].map(Hex), ":")` writes `A:2`. The room is the
/// sum of the rooms of the parts and of the lengths of the separators.
///
/// ```
/// use cojimuran::{Hex, Joined, Part};
///
/// assert_eq!(Joined(&[-1, 20], ", ").to_str(&mut [0; 64]), "-1, 20");
/// assert_eq!(Joined(&[10u8, 2].map(Hex), ":").to_str(&mut [0; 64]), "A:2");
/// ```
#[derive(Clone, Copy, PartialEq, Eq, Hash, Debug)]
pub struct Joined<'a, P>(
    /// The parts.
    pub &'a [P],
    /// The separator.
    pub &'a str,
);

impl<P: Part> Part for Joined<'_, P> {
    #[inline(always)]
    #[track_caller]
    fn room(self) -> usize {
        let separators = self.0.len().saturating_sub(1);
        let mut room = separators.saturating_mul(self.1.len());
        for part in self.0 {
            room = room.saturating_add(part.room());
        }
        room
    }

    #[inline(always)]
    #[track_caller]
    fn write_to(self, buffer: &mut [u8]) -> usize {
        let mut count = 0;
        for (index, part) in self.0.iter().enumerate() {
            count += write_next(index, self.1, *part, &mut buffer[count..]);
        }
        count
    }

    #[inline(always)]
    #[track_caller]
    fn text_len(self) -> Option<usize> {
        let separators = self.0.len().saturating_sub(1);
        let mut count: usize = 0;
        for part in self.0 {
            count = count.checked_add(part.text_len()?)?;
        }
        count.checked_add(separators.checked_mul(self.1.len())?)
    }

    #[inline(always)]
    #[track_caller]
    fn is_known_valid_and_utf8(self, sealed: Sealed) -> bool {
        for part in self.0 {
            if !part.is_known_valid_and_utf8(sealed) {
                return false;
            }
        }
        // Also without parts, since an empty text is UTF-8.
        true
    }

    #[inline(always)]
    #[track_caller]
    fn room_bound(self, sealed: Sealed) -> usize {
        let separators = self.0.len().saturating_sub(1);
        let mut bound = separators.saturating_mul(self.1.len());
        for part in self.0 {
            bound = bound.saturating_add(part.room_bound(sealed));
        }
        bound
    }
}

impl<P: Show> Show for Joined<'_, P> {
    #[inline(always)]
    #[track_caller]
    fn is_showable(self) -> bool {
        for part in self.0 {
            if !part.is_showable() {
                return false;
            }
        }
        true
    }

    #[inline(always)]
    #[track_caller]
    fn write_pieces<O: fmt::Write>(self, out: &mut O) -> fmt::Result {
        for (index, part) in self.0.iter().enumerate() {
            out.write_str(separator_before(index, self.1))?;
            part.write_pieces(out)?;
        }
        Ok(())
    }
}
