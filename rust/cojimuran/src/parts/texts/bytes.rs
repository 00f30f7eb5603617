// Made by `strip` from crates/lexical_parts/src/texts/bytes.rt. Edit that file, not this one.

//! Bytes as a part: those of a slice, or a single one.

use crate::parts::part::Part;
use crate::parts::sealed::Sealed;
use crate::parts::show::Show;
use crate::write_integer::buffer::copy_to_front;
use core::fmt;
use core::str::from_utf8;

/// A part whose text is the bytes of a slice: `Bytes(b"ab")` writes `ab`.
///
/// Its room is the length of the slice. In a `&str`, a `String` or a format string the bytes must be UTF-8.
///
/// ```
/// use cojimuran::{Bytes, Part};
///
/// assert_eq!(Bytes(b"ab").to_str(&mut [0; 64]), "ab");
/// ```
#[derive(Clone, Copy, PartialEq, Eq, Hash, Debug)]
pub struct Bytes<'a>(pub &'a [u8]);

impl Part for Bytes<'_> {
    #[inline(always)]
    #[track_caller]
    fn room(self) -> usize {
        self.0.len()
    }

    #[inline(always)]
    #[track_caller]
    fn write_to(self, buffer: &mut [u8]) -> usize {
        copy_to_front(self.0, buffer)
    }

    #[inline(always)]
    #[track_caller]
    fn text_len(self) -> Option<usize> {
        Some(self.0.len())
    }

    #[inline(always)]
    #[track_caller]
    fn is_known_valid_and_utf8(self, _sealed: Sealed) -> bool {
        from_utf8(self.0).is_ok()
    }
}

impl Show for Bytes<'_> {
    #[inline(always)]
    #[track_caller]
    fn is_showable(self) -> bool {
        self.is_known_valid_and_utf8(Sealed)
    }

    #[inline(always)]
    #[track_caller]
    fn write_pieces<O: fmt::Write>(self, out: &mut O) -> fmt::Result {
        match from_utf8(self.0) {
            Ok(text) => out.write_str(text),
            Err(_) => Err(fmt::Error),
        }
    }
}

/// A part whose text is one byte: `Byte(b'a')` writes `a`. Its room is 1. In a `&str`, a `String` or a format string
/// the byte must be below 128.
///
/// ```
/// use cojimuran::{Byte, Part};
///
/// assert_eq!(Byte(b'a').to_str(&mut [0; 64]), "a");
/// ```
#[derive(Clone, Copy, PartialEq, Eq, Hash, Debug)]
pub struct Byte(pub u8);

impl Part for Byte {
    #[inline(always)]
    #[track_caller]
    fn room(self) -> usize {
        1
    }

    #[inline(always)]
    #[track_caller]
    fn write_to(self, buffer: &mut [u8]) -> usize {
        copy_to_front(&[self.0], buffer)
    }

    #[inline(always)]
    #[track_caller]
    fn text_len(self) -> Option<usize> {
        Some(1)
    }

    #[inline(always)]
    #[track_caller]
    fn is_known_valid_and_utf8(self, _sealed: Sealed) -> bool {
        self.0 < 128
    }
}

impl Show for Byte {
    #[inline(always)]
    #[track_caller]
    fn is_showable(self) -> bool {
        self.is_known_valid_and_utf8(Sealed)
    }
}
