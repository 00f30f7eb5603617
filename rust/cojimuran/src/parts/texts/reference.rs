// Made by `strip` from crates/lexical_parts/src/texts/reference.rt. Edit that file, not this one.

//! References to parts, which have the text of the part.

use crate::parts::part::Part;
use crate::parts::sealed::Sealed;
use crate::parts::show::Show;
use core::fmt;

impl<P: Part> Part for &P {
    #[inline]
    #[track_caller]
    fn room(self) -> usize {
        (*self).room()
    }

    #[inline]
    #[track_caller]
    fn write_to(self, buffer: &mut [u8]) -> usize {
        (*self).write_to(buffer)
    }

    #[inline]
    #[track_caller]
    fn text_len(self) -> Option<usize> {
        (*self).text_len()
    }

    #[inline(always)]
    #[track_caller]
    fn is_known_valid_and_utf8(self, sealed: Sealed) -> bool {
        (*self).is_known_valid_and_utf8(sealed)
    }

    #[inline(always)]
    #[track_caller]
    fn room_bound(self, sealed: Sealed) -> usize {
        (*self).room_bound(sealed)
    }
}

impl<P: Show> Show for &P {
    #[inline]
    #[track_caller]
    fn is_showable(self) -> bool {
        (*self).is_showable()
    }

    #[inline]
    #[track_caller]
    fn write_pieces<O: fmt::Write>(self, out: &mut O) -> fmt::Result {
        (*self).write_pieces(out)
    }
}
