// Made by `strip` from crates/lexical_parts/src/texts/strings.rt. Edit that file, not this one.

//! Strings, which are parts: the text of a `&str` is the string.

use crate::parts::part::Part;
use crate::parts::sealed::Sealed;
use crate::parts::show::Show;
use crate::write_integer::buffer::copy_to_front;
use core::fmt;

impl Part for &str {
    #[inline(always)]
    #[track_caller]
    fn room(self) -> usize {
        self.len()
    }

    #[inline(always)]
    #[track_caller]
    fn write_to(self, buffer: &mut [u8]) -> usize {
        copy_to_front(self.as_bytes(), buffer)
    }

    #[inline(always)]
    #[track_caller]
    fn text_len(self) -> Option<usize> {
        Some(self.len())
    }

    #[inline(always)]
    #[track_caller]
    fn is_known_valid_and_utf8(self, _sealed: Sealed) -> bool {
        true
    }
}

impl Show for &str {
    #[inline(always)]
    #[track_caller]
    fn is_showable(self) -> bool {
        true
    }

    #[inline(always)]
    #[track_caller]
    fn write_pieces<O: fmt::Write>(self, out: &mut O) -> fmt::Result {
        out.write_str(self)
    }
}
