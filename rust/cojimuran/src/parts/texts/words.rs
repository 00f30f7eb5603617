// Made by `strip` from crates/lexical_parts/src/texts/words.rt. Edit that file, not this one.

//! The words `true` and `false`, which are the texts of a `bool`.

use crate::parts::part::Part;
use crate::parts::sealed::Sealed;
use crate::parts::show::Show;

// Returns `true` or `false`.
#[inline(always)]
#[track_caller]
fn word(flag: bool) -> &'static str {
    if flag { "true" } else { "false" }
}

impl Part for bool {
    #[inline(always)]
    #[track_caller]
    fn room(self) -> usize {
        5
    }

    #[inline(always)]
    #[track_caller]
    fn write_to(self, buffer: &mut [u8]) -> usize {
        let text = word(self);
        text.write_to(buffer)
    }

    #[inline(always)]
    #[track_caller]
    fn text_len(self) -> Option<usize> {
        Some(word(self).len())
    }

    #[inline(always)]
    #[track_caller]
    fn is_known_valid_and_utf8(self, _sealed: Sealed) -> bool {
        true
    }
}

impl Show for bool {
    #[inline(always)]
    #[track_caller]
    fn is_showable(self) -> bool {
        true
    }
}
