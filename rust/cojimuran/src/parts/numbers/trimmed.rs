// Made by `strip` from crates/lexical_parts/src/numbers/trimmed.rt. Edit that file, not this one.

//! Numbers of units without zeros at the end of their fraction.

use crate::parts::numbers::fixed::{Fixed, LONGEST_FIXED, write_units};
use crate::parts::numbers::scientific::count_without_zeros;
use crate::parts::numbers::sign::Sign;
use crate::parts::part::Part;
use crate::parts::sealed::Sealed;
use crate::parts::show::Show;
use crate::parts::texts::bytes::Bytes;
use crate::write_integer::ToLexical;

// Writes the absolute value of a number of units of 10^-`decimals` to the start of the buffer, without zeros at the end
// of its fraction, and returns the number of bytes written.
#[inline]
#[track_caller]
fn write_trimmed_units<T: ToLexical>(number: T, decimals: usize, buffer: &mut [u8]) -> usize {
    let mut array = [0; 20];
    let count = write_units(number, decimals, &mut array);
    let units = &array[..count];
    let whole = units.len() - decimals;
    let kept = count_without_zeros(units, whole);
    if kept == whole {
        return Bytes(&units[..whole]).write_to(buffer);
    }
    (Bytes(&units[..whole]), ".", Bytes(&units[whole..kept])).write_to(buffer)
}

/// A number as [`Fixed`](super::super::Fixed) writes it, without zeros at the end of its fraction.
///
/// If no decimal is left, there is no point either: `TrimmedFixed(-1500, 3)` writes `-1.5`, and `TrimmedFixed(2000u32,
/// 3)` writes `2`. The room is at most 22 bytes.
///
/// ```
/// use cojimuran::{Part, TrimmedFixed};
///
/// assert_eq!(TrimmedFixed(-1500, 3).to_str(&mut [0; 64]), "-1.5");
/// assert_eq!(TrimmedFixed(2000u32, 3).to_str(&mut [0; 64]), "2");
/// ```
#[derive(Clone, Copy, PartialEq, Eq, Hash, Debug)]
pub struct TrimmedFixed<T>(
    /// The number without its point: 1995 for `19.95`.
    pub T,
    /// The number of decimals, at most 19.
    pub usize,
);

impl<T: ToLexical> Part for TrimmedFixed<T> {
    #[inline]
    #[track_caller]
    fn room(self) -> usize {
        Fixed(self.0, self.1).room()
    }

    #[inline]
    #[track_caller]
    fn write_to(self, buffer: &mut [u8]) -> usize {
        let start = Sign(self.0, false).write_to(buffer);
        start + write_trimmed_units(self.0, self.1, &mut buffer[start..])
    }

    #[inline]
    #[track_caller]
    fn text_len(self) -> Option<usize> {
        // How many zeros the fraction ends with, only its digits say.
        Some(self.write_to(&mut [0; LONGEST_FIXED]))
    }

    #[inline(always)]
    #[track_caller]
    fn is_known_valid_and_utf8(self, sealed: Sealed) -> bool {
        Fixed(self.0, self.1).is_known_valid_and_utf8(sealed)
    }
}

impl<T: ToLexical> Show for TrimmedFixed<T> {
    #[inline]
    #[track_caller]
    fn is_showable(self) -> bool {
        self.is_known_valid_and_utf8(Sealed)
    }
}
