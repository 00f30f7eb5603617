// Made by `strip` from crates/lexical_tables/src/lib.rt. Edit that file, not this one.

//! Tables of digit pairs, one for each radix from 2 to 36.
//!
//! The table of a radix holds the characters of the two digits of each number below the square of the
//! radix, so a writer gets two digits from one look-up. Here a byte is written in hexadecimal:
//!
//! ```
//! use cojimuran::table::get_table;
//!
//! let table = get_table(16);
//! let pair = 2 * 0xA7;
//! assert_eq!([table[pair], table[pair + 1]], *b"A7");
//! ```

mod digit_pairs;

pub use digit_pairs::{
    DIGIT_TO_BASE2_SQUARED, DIGIT_TO_BASE3_SQUARED, DIGIT_TO_BASE4_SQUARED, DIGIT_TO_BASE5_SQUARED,
    DIGIT_TO_BASE6_SQUARED, DIGIT_TO_BASE7_SQUARED, DIGIT_TO_BASE8_SQUARED, DIGIT_TO_BASE9_SQUARED,
    DIGIT_TO_BASE10_SQUARED, DIGIT_TO_BASE11_SQUARED, DIGIT_TO_BASE12_SQUARED,
    DIGIT_TO_BASE13_SQUARED, DIGIT_TO_BASE14_SQUARED, DIGIT_TO_BASE15_SQUARED,
    DIGIT_TO_BASE16_SQUARED, DIGIT_TO_BASE17_SQUARED, DIGIT_TO_BASE18_SQUARED,
    DIGIT_TO_BASE19_SQUARED, DIGIT_TO_BASE20_SQUARED, DIGIT_TO_BASE21_SQUARED,
    DIGIT_TO_BASE22_SQUARED, DIGIT_TO_BASE23_SQUARED, DIGIT_TO_BASE24_SQUARED,
    DIGIT_TO_BASE25_SQUARED, DIGIT_TO_BASE26_SQUARED, DIGIT_TO_BASE27_SQUARED,
    DIGIT_TO_BASE28_SQUARED, DIGIT_TO_BASE29_SQUARED, DIGIT_TO_BASE30_SQUARED,
    DIGIT_TO_BASE31_SQUARED, DIGIT_TO_BASE32_SQUARED, DIGIT_TO_BASE33_SQUARED,
    DIGIT_TO_BASE34_SQUARED, DIGIT_TO_BASE35_SQUARED, DIGIT_TO_BASE36_SQUARED,
};

/// Returns the table of a radix from 2 to 36.
///
/// It has two bytes for each number below the square of the radix: the bytes at `2 * i` and `2 * i + 1` are the
/// characters of the two digits of `i`.
///
/// # Panics
///
/// If the radix is not from 2 to 36.
#[must_use]
#[inline]
pub fn get_table(radix: u32) -> &'static [u8] {
    assert!(radix >= 2, "the radix is not from 2 to 36");
    assert!(radix <= 36, "the radix is not from 2 to 36");
    table_of(radix)
}

// Returns the table of the radix, which is one of the constants.
#[inline]
fn table_of(radix: u32) -> &'static [u8] {
    match radix {
        2 => &DIGIT_TO_BASE2_SQUARED,
        3 => &DIGIT_TO_BASE3_SQUARED,
        4 => &DIGIT_TO_BASE4_SQUARED,
        5 => &DIGIT_TO_BASE5_SQUARED,
        6 => &DIGIT_TO_BASE6_SQUARED,
        7 => &DIGIT_TO_BASE7_SQUARED,
        8 => &DIGIT_TO_BASE8_SQUARED,
        9 => &DIGIT_TO_BASE9_SQUARED,
        10 => &DIGIT_TO_BASE10_SQUARED,
        11 => &DIGIT_TO_BASE11_SQUARED,
        12 => &DIGIT_TO_BASE12_SQUARED,
        13 => &DIGIT_TO_BASE13_SQUARED,
        14 => &DIGIT_TO_BASE14_SQUARED,
        15 => &DIGIT_TO_BASE15_SQUARED,
        16 => &DIGIT_TO_BASE16_SQUARED,
        17 => &DIGIT_TO_BASE17_SQUARED,
        18 => &DIGIT_TO_BASE18_SQUARED,
        19 => &DIGIT_TO_BASE19_SQUARED,
        20 => &DIGIT_TO_BASE20_SQUARED,
        21 => &DIGIT_TO_BASE21_SQUARED,
        22 => &DIGIT_TO_BASE22_SQUARED,
        23 => &DIGIT_TO_BASE23_SQUARED,
        24 => &DIGIT_TO_BASE24_SQUARED,
        25 => &DIGIT_TO_BASE25_SQUARED,
        26 => &DIGIT_TO_BASE26_SQUARED,
        27 => &DIGIT_TO_BASE27_SQUARED,
        28 => &DIGIT_TO_BASE28_SQUARED,
        29 => &DIGIT_TO_BASE29_SQUARED,
        30 => &DIGIT_TO_BASE30_SQUARED,
        31 => &DIGIT_TO_BASE31_SQUARED,
        32 => &DIGIT_TO_BASE32_SQUARED,
        33 => &DIGIT_TO_BASE33_SQUARED,
        34 => &DIGIT_TO_BASE34_SQUARED,
        35 => &DIGIT_TO_BASE35_SQUARED,
        36 => &DIGIT_TO_BASE36_SQUARED,
        _ => unreachable!(),
    }
}
