// Made by `strip` from crates/lexical_parts/src/numbers/powers_of_two.rt. Edit that file, not this one.

//! Unsigned numbers in radix 16 and in radix 2, in the room of their type.

use crate::parts::numbers::padded::PaddedDigits;
use crate::parts::part::Part;
use crate::parts::sealed::Sealed;
use crate::parts::show::Show;
use crate::write_integer::digit_count::DigitCount;
use crate::write_integer::radix::{Radix, write_in_constant_radix};

/// The digits of an unsigned number in radix 16, without a prefix: `Hex(255u32)` writes `FF`.
///
/// Its room is that of its type: 2 bytes for a `u8`, and 16 for a `u64`.
///
/// A literal needs a type, because an `i32` is signed: `Hex(255u8)`. A signed number in a radix is written by
/// `Formatted`.
///
/// ```
/// use cojimuran::{Hex, Part};
///
/// assert_eq!(Hex(255u32).to_str(&mut [0; 64]), "FF");
/// ```
#[derive(Clone, Copy, PartialEq, Eq, Hash, Debug)]
pub struct Hex<T>(pub T);

impl<T: Radix> Part for Hex<T> {
    #[inline(always)]
    #[track_caller]
    fn room(self) -> usize {
        T::BITS / 4 // Each digit has four bits.
    }

    #[inline(always)]
    #[track_caller]
    fn write_to(self, buffer: &mut [u8]) -> usize {
        // Its code is short enough for each caller.
        write_in_constant_radix(self.0, 16, buffer)
    }

    #[inline(always)]
    #[track_caller]
    fn text_len(self) -> Option<usize> {
        Some(self.0.as_u64().digit_count(16))
    }

    #[inline(always)]
    #[track_caller]
    fn is_known_valid_and_utf8(self, _sealed: Sealed) -> bool {
        true
    }
}

impl<T: Radix> Show for Hex<T> {
    #[inline(always)]
    #[track_caller]
    fn is_showable(self) -> bool {
        true
    }
}

/// The digits of an unsigned number in radix 2, without a prefix: `Binary(5u8)` writes `101`.
///
/// Its room is that of its type: 8 bytes for a `u8`, and 64 for a `u64`. A literal needs a type, because an `i32` is
/// signed: `Binary(5u8)`.
///
/// ```
/// use cojimuran::{Binary, Part};
///
/// assert_eq!(Binary(5u8).to_str(&mut [0; 64]), "101");
/// ```
#[derive(Clone, Copy, PartialEq, Eq, Hash, Debug)]
pub struct Binary<T>(pub T);

impl<T: Radix> Part for Binary<T> {
    #[inline(always)]
    #[track_caller]
    fn room(self) -> usize {
        T::BITS
    }

    #[inline(always)]
    #[track_caller]
    fn write_to(self, buffer: &mut [u8]) -> usize {
        // It writes by a call, because the code of radix 2 is long.
        self.0.radix(2, buffer)
    }

    #[inline(always)]
    #[track_caller]
    fn text_len(self) -> Option<usize> {
        Some(self.0.as_u64().digit_count(2))
    }

    #[inline(always)]
    #[track_caller]
    fn is_known_valid_and_utf8(self, _sealed: Sealed) -> bool {
        true
    }
}

impl<T: Radix> Show for Binary<T> {
    #[inline(always)]
    #[track_caller]
    fn is_showable(self) -> bool {
        true
    }
}

/// All digits of an unsigned number in radix 16, with leading zeros: `FullHex(255u16)` writes `00FF`.
///
/// The width is that of the type: 2 for a `u8`, and 16 for a `u64` and for a `usize` on every target. A literal needs a
/// type, because an `i32` is signed. The room is this width.
///
/// ```
/// use cojimuran::{FullHex, Part};
///
/// assert_eq!(FullHex(255u16).to_str(&mut [0; 64]), "00FF");
/// ```
#[derive(Clone, Copy, PartialEq, Eq, Hash, Debug)]
pub struct FullHex<T>(pub T);

impl<T: DigitCount + Radix> Part for FullHex<T> {
    #[inline(always)]
    #[track_caller]
    fn room(self) -> usize {
        T::BITS / 4
    }

    #[inline(always)]
    #[track_caller]
    fn write_to(self, buffer: &mut [u8]) -> usize {
        PaddedDigits(16, self.0, T::BITS / 4).write_to(buffer)
    }

    #[inline(always)]
    #[track_caller]
    fn text_len(self) -> Option<usize> {
        Some(T::BITS / 4)
    }

    #[inline(always)]
    #[track_caller]
    fn is_known_valid_and_utf8(self, _sealed: Sealed) -> bool {
        true
    }
}

impl<T: DigitCount + Radix> Show for FullHex<T> {
    #[inline(always)]
    #[track_caller]
    fn is_showable(self) -> bool {
        true
    }
}
