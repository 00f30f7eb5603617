// Made by `strip` from crates/lexical_parts/src/numbers/plus.rt. Edit that file, not this one.

//! Numbers that always have a sign.

use crate::parts::numbers::sign::Sign;
use crate::parts::part::Part;
use crate::parts::sealed::Sealed;
use crate::parts::show::Show;
use crate::write_integer::ToLexical;
use crate::write_integer::format::STANDARD;

/// A number in decimal that always has a sign, `+` if it is not negative: `Plus(5u8)` writes `+5`, and `Plus(-5)`
/// writes `-5`.
///
/// `ZeroPadded(Plus(42), 8)` writes `+0000042`, as `{:+08}` does. Its room is at most 21 bytes.
///
/// ```
/// use cojimuran::{Part, Plus, ZeroPadded};
///
/// assert_eq!(Plus(5u8).to_str(&mut [0; 64]), "+5");
/// assert_eq!(Plus(-5).to_str(&mut [0; 64]), "-5");
/// assert_eq!(ZeroPadded(Plus(42), 8).to_str(&mut [0; 64]), "+0000042");
/// ```
#[derive(Clone, Copy, PartialEq, Eq, Hash, Debug)]
pub struct Plus<T>(pub T);

impl<T: ToLexical> Part for Plus<T> {
    #[inline]
    #[track_caller]
    fn room(self) -> usize {
        1 + T::DECIMAL_WIDTH
    }

    #[inline]
    #[track_caller]
    fn write_to(self, buffer: &mut [u8]) -> usize {
        let start = Sign(self.0, true).write_to(buffer);
        start + self.0.write_magnitude(&STANDARD, &mut buffer[start..])
    }

    #[inline]
    #[track_caller]
    fn text_len(self) -> Option<usize> {
        Some(1 + self.0.magnitude_digits(10))
    }

    #[inline(always)]
    #[track_caller]
    fn is_known_valid_and_utf8(self, _sealed: Sealed) -> bool {
        true
    }
}

impl<T: ToLexical> Show for Plus<T> {
    #[inline]
    #[track_caller]
    fn is_showable(self) -> bool {
        true
    }
}
