// Made by `strip` from crates/lexical_parts/src/numbers/digits.rt. Edit that file, not this one.

//! The digits of an unsigned number in any radix, which is a field of the part or stands in its type.

use crate::num::limits::is_radix;
use crate::parts::numbers::compact::CompactDigits;
use crate::parts::numbers::padded::MOST_DIGITS;
use crate::parts::part::Part;
use crate::parts::sealed::Sealed;
use crate::parts::show::Show;
use crate::write_integer::digit_count::{DigitCount, most_digits};
use crate::write_integer::radix::Radix;
use core::fmt;

/// The digits of an unsigned number in a radix from 2 to 36: `Digits(16, 255u32)` writes `FF`.
///
/// The digits above 9 are `A` to `Z`; `Lower(Digits(16, 255u32))` writes `ff`. With another radix the part is not
/// valid. A literal needs a type, because an `i32` is signed: `Digits(36, 1000u64)`. A signed number in a radix is
/// written by `Formatted`. The room is the number of digits.
///
/// If the radix is a constant in the expression that writes the part, as below, your program has only the code of that
/// radix. If you pass the part on, make it an [`InRadix`](super::super::InRadix), which has its radix in its type. If
/// the radix is known only at run time, your program has [the code of every
/// radix](crate::costs#a-radix-that-is-known-only-at-run-time), which is 35 KB for a `u8` and 67 KB for a `u64`.
/// `write_pieces` and `{}` add 4 to 8 KB instead, because they divide once for each digit.
///
/// ```
/// use cojimuran::{Digits, Lower, Part};
///
/// assert_eq!(Digits(16, 255u32).to_str(&mut [0; 64]), "FF");
/// assert_eq!(Lower(Digits(16, 255u32)).to_str(&mut [0; 64]), "ff");
/// ```
#[derive(Clone, Copy, PartialEq, Eq, Hash, Debug)]
pub struct Digits<T>(
    /// The radix.
    pub u32,
    /// The number.
    pub T,
);

impl<T: Radix + DigitCount> Part for Digits<T> {
    #[inline(always)]
    #[track_caller]
    fn room(self) -> usize {
        self.1.digit_count(self.0)
    }

    #[inline(always)]
    #[track_caller]
    fn write_to(self, buffer: &mut [u8]) -> usize {
        self.1.radix(self.0, buffer)
    }

    #[inline(always)]
    #[track_caller]
    fn text_len(self) -> Option<usize> {
        Some(self.1.digit_count(self.0))
    }

    #[inline(always)]
    #[track_caller]
    fn room_bound(self, _sealed: Sealed) -> usize {
        most_digits::<T>(self.0)
    }

    #[inline(always)]
    #[track_caller]
    fn is_known_valid_and_utf8(self, _sealed: Sealed) -> bool {
        is_radix(u64::from(self.0))
    }
}

impl<T: Radix + DigitCount> Show for Digits<T> {
    #[inline(always)]
    #[track_caller]
    fn is_showable(self) -> bool {
        self.is_known_valid_and_utf8(Sealed)
    }

    #[inline(always)]
    #[track_caller]
    fn write_pieces<O: fmt::Write>(self, out: &mut O) -> fmt::Result {
        if !self.is_showable() {
            return Err(fmt::Error);
        }
        let digits = CompactDigits(self.0, self.1.as_u64());
        out.write_str(digits.to_str(&mut [0; MOST_DIGITS]))
    }
}

/// The digits of an unsigned number in a radix that you know: `InRadix::<36, _>(1000u64)` writes `RS`.
///
/// It writes the same text as `Digits(36, 1000u64)`, and has the same room. But the radix stands in the type, so your
/// program has only the code of that radix, wherever the part goes: for example through a function that is not
/// inlined, or into a [`Joined`](super::super::Joined).
///
/// The radix is from 2 to 36. Another one is an error of `cargo build`, though not of `cargo check`. The digits above 9
/// are `A` to `Z`, and [`Lower`](super::super::Lower) of the part writes `a` to `z`. A literal needs a type, because an
/// `i32` is signed.
///
/// ```
/// use cojimuran::{InRadix, Lower, Part};
///
/// assert_eq!(InRadix::<36, _>(1000u64).to_str(&mut [0; 64]), "RS");
/// assert_eq!(Lower(InRadix::<36, _>(1000u64)).to_str(&mut [0; 64]), "rs");
/// ```
#[derive(Clone, Copy, PartialEq, Eq, Hash, Debug)]
pub struct InRadix<const RADIX: u32, T>(
    /// The number.
    pub T,
);

impl<const RADIX: u32, T> InRadix<RADIX, T> {
    // Returns the part with its radix as a value.
    #[inline(always)]
    #[track_caller]
    fn digits(self) -> Digits<T> {
        const { assert!(is_radix(RADIX as u64), "the radix is not from 2 to 36") };
        Digits(RADIX, self.0)
    }
}

impl<const RADIX: u32, T: Radix + DigitCount> Part for InRadix<RADIX, T> {
    #[inline(always)]
    #[track_caller]
    fn room(self) -> usize {
        self.digits().room()
    }

    #[inline(always)]
    #[track_caller]
    fn write_to(self, buffer: &mut [u8]) -> usize {
        self.digits().write_to(buffer)
    }

    #[inline(always)]
    #[track_caller]
    fn text_len(self) -> Option<usize> {
        self.digits().text_len()
    }

    #[inline(always)]
    #[track_caller]
    fn room_bound(self, sealed: Sealed) -> usize {
        self.digits().room_bound(sealed)
    }

    #[inline(always)]
    #[track_caller]
    fn is_known_valid_and_utf8(self, sealed: Sealed) -> bool {
        self.digits().is_known_valid_and_utf8(sealed)
    }
}

impl<const RADIX: u32, T: Radix + DigitCount> Show for InRadix<RADIX, T> {
    #[inline(always)]
    #[track_caller]
    fn is_showable(self) -> bool {
        self.digits().is_showable()
    }

    #[inline(always)]
    #[track_caller]
    fn write_pieces<O: fmt::Write>(self, out: &mut O) -> fmt::Result {
        if !self.is_showable() {
            return Err(fmt::Error);
        }
        out.write_str(self.to_str(&mut [0; MOST_DIGITS]))
    }
}
