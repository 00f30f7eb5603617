// Made by `strip` from crates/lexical_parts/src/numbers/sign.rt. Edit that file, not this one.

//! The sign of a number, as a part of its own.

use crate::num::num::LexicalInteger;
use crate::parts::part::Part;
use crate::parts::sealed::Sealed;
use crate::parts::show::Show;
use crate::write_integer::buffer::copy_to_front;

/// The sign of a number: `-` if it is below 0, and otherwise nothing, or a `+` if one is required.
///
/// `Sign(-5, false)` writes `-`, as `Sign(-5, true)` does, and `Sign(5, true)` writes `+`. The room is 1.
///
/// ```
/// use cojimuran::{Part, Sign};
///
/// assert_eq!(Sign(-5, false).to_str(&mut [0; 64]), "-");
/// assert_eq!(Sign(5, true).to_str(&mut [0; 64]), "+");
/// ```
#[derive(Clone, Copy, PartialEq, Eq, Hash, Debug)]
pub struct Sign<T>(
    /// The number.
    pub T,
    /// Whether a number that is not below 0 gets a `+`.
    pub bool,
);

impl<T: LexicalInteger> Part for Sign<T> {
    #[inline]
    #[track_caller]
    fn room(self) -> usize {
        1
    }

    #[inline]
    #[track_caller]
    fn write_to(self, buffer: &mut [u8]) -> usize {
        if self.0.is_negative() {
            copy_to_front(b"-", buffer)
        } else if self.1 {
            copy_to_front(b"+", buffer)
        } else {
            0
        }
    }

    #[inline]
    #[track_caller]
    fn text_len(self) -> Option<usize> {
        Some(usize::from(self.0.is_negative() || self.1))
    }

    #[inline(always)]
    #[track_caller]
    fn is_known_valid_and_utf8(self, _sealed: Sealed) -> bool {
        true
    }
}

impl<T: LexicalInteger> Show for Sign<T> {
    #[inline]
    #[track_caller]
    fn is_showable(self) -> bool {
        true
    }
}
