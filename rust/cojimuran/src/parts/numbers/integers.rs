// Made by `strip` from crates/lexical_parts/src/numbers/integers.rt. Edit that file, not this one.

//! The integer types, which are parts: the text of a number is the number in decimal.

use crate::parts::numbers::decimal::Decimal;
use crate::parts::part::Part;
use crate::parts::sealed::Sealed;
use crate::parts::show::Show;

// Each type has its own `impl`: a generic one would also be one for `&str` and tuples, and `rt ci` refuses one that a
// macro of ours writes.
impl Part for u8 {
    #[inline(always)]
    #[track_caller]
    fn room(self) -> usize {
        3
    }

    #[inline(never)]
    #[track_caller]
    fn write_to(self, buffer: &mut [u8]) -> usize {
        Decimal(self).write_to(buffer)
    }

    #[inline(always)]
    #[track_caller]
    fn text_len(self) -> Option<usize> {
        Decimal(self).text_len()
    }

    #[inline(always)]
    #[track_caller]
    fn is_known_valid_and_utf8(self, _sealed: Sealed) -> bool {
        true
    }
}

impl Show for u8 {
    #[inline(always)]
    #[track_caller]
    fn is_showable(self) -> bool {
        true
    }
}

impl Part for u16 {
    #[inline(always)]
    #[track_caller]
    fn room(self) -> usize {
        5
    }

    #[inline(never)]
    #[track_caller]
    fn write_to(self, buffer: &mut [u8]) -> usize {
        Decimal(self).write_to(buffer)
    }

    #[inline(always)]
    #[track_caller]
    fn text_len(self) -> Option<usize> {
        Decimal(self).text_len()
    }

    #[inline(always)]
    #[track_caller]
    fn is_known_valid_and_utf8(self, _sealed: Sealed) -> bool {
        true
    }
}

impl Show for u16 {
    #[inline(always)]
    #[track_caller]
    fn is_showable(self) -> bool {
        true
    }
}

impl Part for u32 {
    #[inline(always)]
    #[track_caller]
    fn room(self) -> usize {
        10
    }

    #[inline(never)]
    #[track_caller]
    fn write_to(self, buffer: &mut [u8]) -> usize {
        Decimal(self).write_to(buffer)
    }

    #[inline(always)]
    #[track_caller]
    fn text_len(self) -> Option<usize> {
        Decimal(self).text_len()
    }

    #[inline(always)]
    #[track_caller]
    fn is_known_valid_and_utf8(self, _sealed: Sealed) -> bool {
        true
    }
}

impl Show for u32 {
    #[inline(always)]
    #[track_caller]
    fn is_showable(self) -> bool {
        true
    }
}

impl Part for u64 {
    #[inline(always)]
    #[track_caller]
    fn room(self) -> usize {
        20
    }

    #[inline(never)]
    #[track_caller]
    fn write_to(self, buffer: &mut [u8]) -> usize {
        Decimal(self).write_to(buffer)
    }

    #[inline(always)]
    #[track_caller]
    fn text_len(self) -> Option<usize> {
        Decimal(self).text_len()
    }

    #[inline(always)]
    #[track_caller]
    fn is_known_valid_and_utf8(self, _sealed: Sealed) -> bool {
        true
    }
}

impl Show for u64 {
    #[inline(always)]
    #[track_caller]
    fn is_showable(self) -> bool {
        true
    }
}

impl Part for usize {
    #[inline(always)]
    #[track_caller]
    fn room(self) -> usize {
        20
    }

    #[inline(never)]
    #[track_caller]
    fn write_to(self, buffer: &mut [u8]) -> usize {
        Decimal(self).write_to(buffer)
    }

    #[inline(always)]
    #[track_caller]
    fn text_len(self) -> Option<usize> {
        Decimal(self).text_len()
    }

    #[inline(always)]
    #[track_caller]
    fn is_known_valid_and_utf8(self, _sealed: Sealed) -> bool {
        true
    }
}

impl Show for usize {
    #[inline(always)]
    #[track_caller]
    fn is_showable(self) -> bool {
        true
    }
}

impl Part for i8 {
    #[inline(always)]
    #[track_caller]
    fn room(self) -> usize {
        4
    }

    #[inline(never)]
    #[track_caller]
    fn write_to(self, buffer: &mut [u8]) -> usize {
        Decimal(self).write_to(buffer)
    }

    #[inline(always)]
    #[track_caller]
    fn text_len(self) -> Option<usize> {
        Decimal(self).text_len()
    }

    #[inline(always)]
    #[track_caller]
    fn is_known_valid_and_utf8(self, _sealed: Sealed) -> bool {
        true
    }
}

impl Show for i8 {
    #[inline(always)]
    #[track_caller]
    fn is_showable(self) -> bool {
        true
    }
}

impl Part for i16 {
    #[inline(always)]
    #[track_caller]
    fn room(self) -> usize {
        6
    }

    #[inline(never)]
    #[track_caller]
    fn write_to(self, buffer: &mut [u8]) -> usize {
        Decimal(self).write_to(buffer)
    }

    #[inline(always)]
    #[track_caller]
    fn text_len(self) -> Option<usize> {
        Decimal(self).text_len()
    }

    #[inline(always)]
    #[track_caller]
    fn is_known_valid_and_utf8(self, _sealed: Sealed) -> bool {
        true
    }
}

impl Show for i16 {
    #[inline(always)]
    #[track_caller]
    fn is_showable(self) -> bool {
        true
    }
}

impl Part for i32 {
    #[inline(always)]
    #[track_caller]
    fn room(self) -> usize {
        11
    }

    #[inline(never)]
    #[track_caller]
    fn write_to(self, buffer: &mut [u8]) -> usize {
        Decimal(self).write_to(buffer)
    }

    #[inline(always)]
    #[track_caller]
    fn text_len(self) -> Option<usize> {
        Decimal(self).text_len()
    }

    #[inline(always)]
    #[track_caller]
    fn is_known_valid_and_utf8(self, _sealed: Sealed) -> bool {
        true
    }
}

impl Show for i32 {
    #[inline(always)]
    #[track_caller]
    fn is_showable(self) -> bool {
        true
    }
}

impl Part for i64 {
    #[inline(always)]
    #[track_caller]
    fn room(self) -> usize {
        20
    }

    #[inline(never)]
    #[track_caller]
    fn write_to(self, buffer: &mut [u8]) -> usize {
        Decimal(self).write_to(buffer)
    }

    #[inline(always)]
    #[track_caller]
    fn text_len(self) -> Option<usize> {
        Decimal(self).text_len()
    }

    #[inline(always)]
    #[track_caller]
    fn is_known_valid_and_utf8(self, _sealed: Sealed) -> bool {
        true
    }
}

impl Show for i64 {
    #[inline(always)]
    #[track_caller]
    fn is_showable(self) -> bool {
        true
    }
}

impl Part for isize {
    #[inline(always)]
    #[track_caller]
    fn room(self) -> usize {
        20
    }

    #[inline(never)]
    #[track_caller]
    fn write_to(self, buffer: &mut [u8]) -> usize {
        Decimal(self).write_to(buffer)
    }

    #[inline(always)]
    #[track_caller]
    fn text_len(self) -> Option<usize> {
        Decimal(self).text_len()
    }

    #[inline(always)]
    #[track_caller]
    fn is_known_valid_and_utf8(self, _sealed: Sealed) -> bool {
        true
    }
}

impl Show for isize {
    #[inline(always)]
    #[track_caller]
    fn is_showable(self) -> bool {
        true
    }
}
