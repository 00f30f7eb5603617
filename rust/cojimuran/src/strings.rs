//! References to owned strings, as parts: each has the text of the `&str` in it. This file is written by hand, so
//! `to_str` checks that such a text is UTF-8, as it does for a part of a user.

use crate::parts::{Part, Show};
use alloc::borrow::Cow;
use alloc::boxed::Box;
use alloc::string::String;
use core::fmt;

macro_rules! as_str {
    ($($string:ty)*) => { $(
        impl Part for &$string {
            #[inline(always)]
            fn room(self) -> usize {
                self.len()
            }

            #[inline(always)]
            #[track_caller]
            fn write_to(self, buffer: &mut [u8]) -> usize {
                let text: &str = self;
                text.write_to(buffer)
            }

            #[inline(always)]
            fn text_len(self) -> Option<usize> {
                Some(self.len())
            }
        }

        impl Show for &$string {
            #[inline(always)]
            fn is_showable(self) -> bool {
                true
            }

            #[inline(always)]
            fn write_pieces<O: fmt::Write>(self, out: &mut O) -> fmt::Result {
                out.write_str(self)
            }
        }
    )* };
}

as_str! { String Box<str> Cow<'_, str> }
