// Made by `strip` from crates/lexical_parts/src/numbers/decimal.rt. Edit that file, not this one.

//! One number in decimal.

use crate::parts::numbers::formatted::Formatted;
use crate::parts::part::Part;
use crate::parts::sealed::Sealed;
use crate::parts::show::Show;
use crate::write_integer::ToLexical;
use crate::write_integer::format::STANDARD;

/// A number in decimal, with a `-` if it is negative: `Decimal(-5)` writes `-5`, as the part `-5` does.
///
/// It is for generic code, in which the number has a type parameter. Its room is that of the type, such as 20 bytes for
/// 64 bits.
///
/// ```
/// use cojimuran::{Decimal, Part};
///
/// assert_eq!(Decimal(-5).to_str(&mut [0; 64]), "-5");
/// ```
#[derive(Clone, Copy, PartialEq, Eq, Hash, Debug)]
pub struct Decimal<T>(pub T);

impl<T: ToLexical> Part for Decimal<T> {
    #[inline(always)]
    #[track_caller]
    fn room(self) -> usize {
        T::FORMATTED_SIZE_DECIMAL
    }

    #[inline(always)]
    #[track_caller]
    fn write_to(self, buffer: &mut [u8]) -> usize {
        self.0.write_lexical(buffer)
    }

    #[inline(always)]
    #[track_caller]
    fn text_len(self) -> Option<usize> {
        Formatted(self.0, &STANDARD).text_len()
    }

    #[inline(always)]
    #[track_caller]
    fn is_known_valid_and_utf8(self, _sealed: Sealed) -> bool {
        true
    }
}

impl<T: ToLexical> Show for Decimal<T> {
    #[inline(always)]
    #[track_caller]
    fn is_showable(self) -> bool {
        true
    }
}
