// Made by `strip` from crates/lexical_parts/src/texts/chars.rt. Edit that file, not this one.

//! Characters, which are parts: the text of a `char` is its UTF-8.

use crate::parts::part::Part;
use crate::parts::sealed::Sealed;
use crate::parts::show::Show;

impl Part for char {
    #[inline(always)]
    #[track_caller]
    fn room(self) -> usize {
        4
    }

    #[inline(always)]
    #[track_caller]
    fn write_to(self, buffer: &mut [u8]) -> usize {
        let mut bytes = [0; 4];
        let text: &str = self.encode_utf8(&mut bytes);
        text.write_to(buffer)
    }

    #[inline(always)]
    #[track_caller]
    fn text_len(self) -> Option<usize> {
        Some(self.len_utf8())
    }

    #[inline(always)]
    #[track_caller]
    fn is_known_valid_and_utf8(self, _sealed: Sealed) -> bool {
        true
    }
}

impl Show for char {
    #[inline(always)]
    #[track_caller]
    fn is_showable(self) -> bool {
        true
    }
}
