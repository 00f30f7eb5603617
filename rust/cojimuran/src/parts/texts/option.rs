// Made by `strip` from crates/lexical_parts/src/texts/option.rt. Edit that file, not this one.

//! Parts that may be absent: the text of `Some(part)` is that of the part, and `None` has no bytes.

use crate::parts::part::Part;
use crate::parts::sealed::Sealed;
use crate::parts::show::Show;
use crate::write_integer::buffer::copy_to_front;
use core::fmt;

impl<P: Part> Part for Option<P> {
    #[inline(always)]
    #[track_caller]
    fn room(self) -> usize {
        match self {
            Some(part) => part.room(),
            None => 0,
        }
    }

    #[inline(always)]
    #[track_caller]
    fn write_to(self, buffer: &mut [u8]) -> usize {
        match self {
            Some(part) => part.write_to(buffer),
            None => copy_to_front(b"", buffer),
        }
    }

    #[inline(always)]
    #[track_caller]
    fn text_len(self) -> Option<usize> {
        match self {
            Some(part) => part.text_len(),
            None => Some(0),
        }
    }

    #[inline(always)]
    #[track_caller]
    fn is_known_valid_and_utf8(self, sealed: Sealed) -> bool {
        match self {
            Some(part) => part.is_known_valid_and_utf8(sealed),
            // An empty text is UTF-8.
            None => true,
        }
    }

    #[inline(always)]
    #[track_caller]
    fn room_bound(self, sealed: Sealed) -> usize {
        match self {
            Some(part) => part.room_bound(sealed),
            None => 0,
        }
    }
}

impl<P: Show> Show for Option<P> {
    #[inline(always)]
    #[track_caller]
    fn is_showable(self) -> bool {
        match self {
            Some(part) => part.is_showable(),
            None => true,
        }
    }

    #[inline(always)]
    #[track_caller]
    fn write_pieces<O: fmt::Write>(self, out: &mut O) -> fmt::Result {
        match self {
            Some(part) => part.write_pieces(out),
            None => Ok(()),
        }
    }
}

/// A part that may be absent, and the part that is written in its place.
///
/// `OrElse(Some(5u8), "n/a")` writes `5`, and `OrElse(None::<u8>, "n/a")` writes `n/a`. Its conditions and its room are
/// those of the part that it writes.
///
/// ```
/// use cojimuran::{OrElse, Part};
///
/// assert_eq!(OrElse(Some(5u8), "n/a").to_str(&mut [0; 64]), "5");
/// assert_eq!(OrElse(None::<u8>, "n/a").to_str(&mut [0; 64]), "n/a");
/// ```
#[derive(Clone, Copy, PartialEq, Eq, Hash, Debug)]
pub struct OrElse<P, Q>(
    /// The part that may be absent.
    pub Option<P>,
    /// The part that is written in its place.
    pub Q,
);

impl<P: Part, Q: Part> Part for OrElse<P, Q> {
    #[inline(always)]
    #[track_caller]
    fn room(self) -> usize {
        match self.0 {
            Some(present) => present.room(),
            None => self.1.room(),
        }
    }

    #[inline(always)]
    #[track_caller]
    fn write_to(self, buffer: &mut [u8]) -> usize {
        match self.0 {
            Some(present) => present.write_to(buffer),
            None => self.1.write_to(buffer),
        }
    }

    #[inline(always)]
    #[track_caller]
    fn text_len(self) -> Option<usize> {
        match self.0 {
            Some(present) => present.text_len(),
            None => self.1.text_len(),
        }
    }

    #[inline(always)]
    #[track_caller]
    fn is_known_valid_and_utf8(self, sealed: Sealed) -> bool {
        match self.0 {
            Some(present) => present.is_known_valid_and_utf8(sealed),
            None => self.1.is_known_valid_and_utf8(sealed),
        }
    }

    #[inline(always)]
    #[track_caller]
    fn room_bound(self, sealed: Sealed) -> usize {
        match self.0 {
            Some(present) => present.room_bound(sealed),
            None => self.1.room_bound(sealed),
        }
    }
}

impl<P: Show, Q: Show> Show for OrElse<P, Q> {
    #[inline(always)]
    #[track_caller]
    fn is_showable(self) -> bool {
        match self.0 {
            Some(present) => present.is_showable(),
            None => self.1.is_showable(),
        }
    }

    #[inline(always)]
    #[track_caller]
    fn write_pieces<O: fmt::Write>(self, out: &mut O) -> fmt::Result {
        match self.0 {
            Some(present) => present.write_pieces(out),
            None => self.1.write_pieces(out),
        }
    }
}
