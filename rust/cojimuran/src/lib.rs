//! Writes integers in any radix from 2 to 36, and whole lines of numbers and strings, into a `String`, an array or any
//! other writer.
//!
//! ```
#![doc = include_str!("../examples/first_program.rs")]
//! ```
//!
//! It prints the lines `-1234`, `3W5E11264SGSF` and `id=7 flags=0xFF`.
//!
//! # What you call
//!
//! A *part* is a value with the trait [`Part`], such as a number, a `&str` or a tuple of 2 to 12 parts.
//!
//! | you want | call |
//! |---|---|
//! | one decimal number as a `&str` | [`Buffer::new().format(number)`](Buffer::format) |
//! | a part, such as a tuple, at the end of a `String` or a `Vec<u8>` | `text.push_part(part)` of the trait [`PushPart`] |
//! | a part in any other `fmt::Write`, or with an error in place of a panic | [`part.write_pieces(&mut out)?`](Show::write_pieces) |
//! | a part in an array, as a `&str` | [`part.to_str(&mut buffer)`](Part::to_str) |
//! | a part in an array, as bytes | [`part.to_text(&mut buffer)`](Part::to_text) |
//! | a part in an array that may be too short | [`part.try_to_str(&mut buffer)`](Part::try_to_str) |
//! | a part in a format string | [`Shown(part)`](Shown) |
//! | a part in a file, `stdout` or any other `io::Write` | `file.write_part(part)?` of the trait [`WritePart`] |
//!
//! An array must have [`part.room()`](Part::room) bytes. For a shorter one `to_str` and `to_text`
//! [panic](conditions#what-happens-otherwise). (With a [`Displayed`] they panic only if the text does not fit, or if a
//! number after it does not have its whole room.) [A table](conditions#how-long-a-buffer-must-be) has the room of each
//! part. Write a text of unknown length with `push_part`, `write_part` or `write_pieces`, which need no array.
//! [`BUFFER_SIZE`] bytes are enough for one number in any format.
//!
//! A `char`, a `bool`, an `Option` of a part, a reference to a part and a reference to a `String` are also parts. This
//! crate has these parts:
//!
//! | part | what it writes |
//! |---|---|
//! | [`Digits`], [`Hex`], [`FullHex`], [`Binary`] | an unsigned number in a radix; [`Lower`] of it is in lowercase |
//! | [`InRadix`] | the same as `Digits`, with the radix in the type, so your program has the code of one radix only |
//! | [`Formatted`] | a number in a [`NumberFormat`], which has a radix, groups of digits or a `+` |
//! | [`Fixed`], [`GroupedFixed`], [`TrimmedFixed`] | an amount, such as `-19.95` |
//! | [`Padded`], [`PaddedDigits`], [`ZeroPadded`] | leading zeros, as in `07:05` |
//! | [`Decimal`] | a number of a generic type in decimal |
//! | [`Plus`] | a number in decimal with a `+` or a `-` |
//! | [`Scientific`] | a number with an exponent, such as `1.234e-56` |
//! | [`Left`], [`Right`], [`Center`] | a part in a column |
//! | [`Joined`], [`OrElse`] | the parts of a slice with separators, or a part in place of `None` |
//! | [`Bytes`], [`HexBytes`], [`Byte`] | bytes, or bytes in hexadecimal |
//! | [`Sign`] | the sign of a number, or nothing |
//! | [`Displayed`] | any value with `Display`, such as a float or a `u128` |
//!
//! Most programs need nothing else. The other items are mostly for two purposes:
//!
//! | purpose | items |
//! |---|---|
//! | to move from the crate `lexical-write-integer`, with its names | [`ToLexical`] writes bytes in decimal, and [`ToLexicalWithOptions`] in a [`NumberFormat`]; the modules [`compact`], [`decimal`], [`padded`] and [`radix`] write digits without a sign |
//! | to write into a buffer at a place of your own | [`write_field`] and [`write_with_length`] for a header, [`padded::write_padded`] for a number over a whole buffer, [`compact::Compact`] for digits in little code, [`group_digits`], [`write_sign`] and [`sign_len`] for a writer of your own |
//!
//! These pages have the details: [when calls panic, and how long a buffer must be](conditions), [what they
//! cost](costs), [what to write in place of another crate or `format!`](from_other_crates), and [what to write if a
//! call does not compile](compile_errors).
//!
//! # What is proved
//!
//! The sources are written in Rattle, a dialect of Rust with contracts, and each of their functions is proved: if its
//! [conditions] hold, a call does not panic, and writes exactly the bytes that its contract specifies. The prover is
//! not public. A program makes this Rust code from the sources, and the Rust code is tested, not proved. That `{}` and
//! `write_pieces` of a valid part return `Ok`, and that `to_str` leaves the bytes after the text unchanged, is also only
//! tested. `push_part`, `write_part`, [`Displayed`], references to a `String`, and this page are written by hand.
//!
//! # What allocates
//!
//! Only `push_part` allocates, which grows its `String` or `Vec`, and `write_part` for the error if it refuses a part. A
//! writer of your own may allocate too, and so may the `Display` of a value in a [`Displayed`].
//!
//! # Without `std`
//!
//! The feature `std` provides `write_part`, and the feature `alloc` provides `push_part` and references to a `String`.
//! With `default-features = false` the crate uses only `core`.
//!
//! # A `String`, a `Vec`, a format string
//!
//! ```
//! use cojimuran::{Buffer, Digits, Hex, Padded, Part, PushPart, Show, Shown};
//!
//! // The end of a `String` or a `Vec<u8>`.
//! let mut path = String::from("/l/");
//! path.push_part((7u64, "/", Digits(36, 1000u64)));
//! assert_eq!(path, "/l/7/RS");
//! let mut bytes = b"time ".to_vec();
//! bytes.push_part((Padded(7u8, 2), ":", Padded(5u8, 2)));
//! assert_eq!(bytes, b"time 07:05");
//!
//! // The end of any `fmt::Write`, here of a `String`.
//! ("/", 8u64).write_pieces(&mut path).unwrap();
//! assert_eq!(path, "/l/7/RS/8");
//!
//! // An array. Radix 36 has at most 13 digits for a `u64`.
//! assert_eq!(("/", Digits(36, 1000u64)).to_str(&mut [0; 14]), "/RS");
//! assert_eq!(Buffer::new().format(7u64), "7");
//!
//! // A format string. `Shown` prints a tuple.
//! assert_eq!(format!("{:>6}", Hex(255u16)), "    FF");
//! assert_eq!(format!("{}", Shown(("id=", 7u8))), "id=7");
//! ```
//!
//! # Options in a format string
//!
//! Most parts have `Display`. A tuple, an `Option`, a [`Byte`], a [`Bytes`] and a [`Sign`] have none, and a part of
//! your own has one only if you write it: print them by [`Shown`]. The others take these options:
//!
//! - [`Decimal`], [`Plus`], [`Digits`], [`InRadix`], [`Hex`], [`FullHex`], [`Binary`], [`Formatted`], [`Fixed`],
//!   [`GroupedFixed`], [`TrimmedFixed`], [`Padded`] and [`PaddedDigits`] take the width, the fill, the `+` and the `0`
//!   of an integer. `#` and a precision have no effect on them.
//! - A [`Displayed`] passes all options to its value.
//! - [`Shown`], which is not a part, and all other parts of this crate, such as [`Lower`] and [`ZeroPadded`], take the
//!   width, the fill and the precision of a `&str`.
//! - Integers, strings and references keep the options that they have in the standard library.
//!
//! ```
//! use cojimuran::{Hex, Lower, Shown};
//!
//! assert_eq!(format!("{:06}|{:6}", Hex(255u16), Hex(255u16)), "0000FF|    FF");
//! assert_eq!(format!("{:06}|{:.1}", Lower(Hex(255u16)), Lower(Hex(255u16))), "ff    |f");
//! assert_eq!(format!("{:03}|{:>3}", Shown(5u8), Shown(5u8)), "5  |  5");
//! ```
//!
//! `{}` of a part that is [not valid](conditions#valid-parts) returns an error, so `format!` and `println!` panic. This
//! breaks the convention that a `Display` fails only if its formatter does.
//!
//! # A part of your own
//!
//! A part of your own usually delegates to a part of this crate. Every part is `Copy`. If your type is not, implement
//! `Part` and `Show` for `&YourType`:
//!
//! ```
#![doc = include_str!("../examples/own_part.rs")]
//! ```
//!
//! # Reading numbers back
//!
//! `parse` of the standard library reads a decimal number back, and `from_str_radix` one in another radix. They do not
//! read groups, a decimal point or an exponent:
//!
//! ```
//! use cojimuran::{Digits, Part};
//!
//! let mut buffer = [0; 20];
//! assert_eq!((-1234i32).to_str(&mut buffer).parse(), Ok(-1234));
//! assert_eq!(u64::from_str_radix(Digits(36, u64::MAX).to_str(&mut buffer), 36), Ok(u64::MAX));
//! ```
#![no_std]
#![deny(unsafe_code)]
#![warn(missing_docs, clippy::missing_errors_doc)]

#[cfg(not(any(target_pointer_width = "64", target_pointer_width = "32")))]
compile_error!("this package needs pointers of 64 or 32 bits");

#[cfg(feature = "alloc")]
extern crate alloc;
#[cfg(feature = "std")]
extern crate std;

mod displayed;
#[cfg(feature = "alloc")]
mod push_part;
#[cfg(feature = "alloc")]
mod strings;
#[cfg(feature = "std")]
mod write_part;

// The sources in Rattle, as `strip` makes them: what users have of them is exported below.
#[allow(
    unused_imports,
    clippy::module_inception,
    reason = "the modules and their exports are those of the crates of Rattle"
)]
mod num;
#[doc(hidden)]
pub mod parts;
mod tables;
#[allow(
    unused_imports,
    reason = "its exports are those of the crate of Rattle"
)]
mod write_integer;

#[cfg(doctest)]
mod misuse;

/// A page, not a module: what to write if rustc refuses a call.
///
/// [rooms]: crate::conditions#how-long-a-buffer-must-be
#[cfg(doc)]
#[doc = include_str!("../COMPILE_ERRORS.md")]
pub mod compile_errors {}

/// A page, not a module: how long a buffer must be, which parts are valid, and what happens otherwise.
#[cfg(doc)]
#[doc = include_str!("../CONDITIONS.md")]
pub mod conditions {}

/// A page, not a module: the time and the code size of calls.
#[cfg(doc)]
#[doc = include_str!("../COSTS.md")]
pub mod costs {}

/// A page, not a module: what to change in a program that uses another crate or `format!`.
///
/// [room]: crate::conditions#how-long-a-buffer-must-be
/// [time]: crate::costs#time
#[cfg(doc)]
#[doc = include_str!("../FROM_OTHER_CRATES.md")]
pub mod from_other_crates {}

pub use displayed::Displayed;
pub use num::options::{Options, OptionsBuilder, WriteOptions};
pub use num::{
    BUFFER_SIZE, Error, FormattedSize, LexicalInteger, NumberFormat, NumberFormatBuilder, Result,
    UnsignedInteger,
};
#[doc(inline)]
pub use parts::{
    Binary, Buffer, Byte, Bytes, Center, Decimal, Digits, Fixed, Formatted, FullHex, GroupedFixed,
    Hex, HexBytes, InRadix, Joined, Left, Lower, OrElse, Padded, PaddedDigits, Part, Plus, Right,
    Scientific, Show, Shown, Sign, TrimmedFixed, ZeroPadded, write_field, write_with_length,
};
#[cfg(feature = "alloc")]
pub use push_part::PushPart;
pub use write_integer::{ToLexical, ToLexicalWithOptions, group_digits, sign_len, write_sign};
#[cfg(feature = "std")]
pub use write_part::WritePart;

#[doc(hidden)]
pub mod algorithm {
    //! Writing the digits of a number, four at a time, with the digit pairs of a table.
    pub use crate::write_integer::algorithm::algorithm;
}

#[doc(hidden)]
pub mod buffer {
    //! The start of a buffer.
    pub use crate::write_integer::buffer::{copy_to_front, front_mut};
}

pub mod compact {
    //! Writing the digits of a number in little code, with one division for each digit.
    pub use crate::write_integer::compact::Compact;
}

pub mod decimal {
    //! Writing and counting the digits of a number in radix 10.
    pub use crate::write_integer::decimal::{Decimal, DecimalCount};
    #[doc(hidden)]
    pub use crate::write_integer::decimal::{fallback_digit_count, fast_digit_count, fast_log10};
}

pub mod digit_count {
    //! Counting the digits of a number in any radix.
    pub use crate::write_integer::digit_count::DigitCount;
    #[doc(hidden)]
    pub use crate::write_integer::digit_count::{fast_log2, most_digits};
}

pub mod format {
    //! The standard format, and what the parts of a format may be.
    pub use crate::num::format::STANDARD;
    pub use crate::num::limits::{is_group_size, is_mark, is_radix};
}

#[doc(hidden)]
pub mod jeaiii {
    //! The decimal writer of each type. It multiplies the number to get a fraction, from which products by
    //! 100 take two digits at a time, so no digit needs a division. The algorithm is James Anhalt's jeaiii
    //! (<https://github.com/jeaiii/itoa>); Lemire, Kaser and Kurz, "Faster Remainder by Direct
    //! Computation" (2019), describe how a product with a reciprocal has the digits in its fraction.
    pub use crate::write_integer::jeaiii::{
        fixed_2, fixed_4, fixed_6, fixed_8_nine, fixed_8_ten, fixed_8_wide, from_i64, from_u8,
        from_u16, from_u32, from_u64, next2,
    };
}

pub mod options {
    //! The standard options.
    pub use crate::num::options::STANDARD;
}

pub mod padded {
    //! Numbers with leading zeros, as in dates and times.
    pub use crate::write_integer::padded::write_padded;
}

pub mod radix {
    //! Writing the digits of a number in any radix, and the character of a digit.
    pub use crate::num::digit_to_char;
    pub use crate::write_integer::radix::Radix;
}

pub mod table {
    //! Tables of digit pairs, one for each radix.
    //!
    //! A table holds the characters of the two digits of each number below the square of its radix, so a writer gets
    //! two digits from one look-up. Here a byte is written in hexadecimal:
    //!
    //! ```
    //! use cojimuran::table::get_table;
    //!
    //! let table = get_table(16);
    //! let pair = 2 * 0xA7;
    //! assert_eq!([table[pair], table[pair + 1]], *b"A7");
    //! ```
    pub use crate::tables::get_table;
    #[doc(hidden)]
    pub use crate::tables::{
        DIGIT_TO_BASE2_SQUARED, DIGIT_TO_BASE3_SQUARED, DIGIT_TO_BASE4_SQUARED,
        DIGIT_TO_BASE5_SQUARED, DIGIT_TO_BASE6_SQUARED, DIGIT_TO_BASE7_SQUARED,
        DIGIT_TO_BASE8_SQUARED, DIGIT_TO_BASE9_SQUARED, DIGIT_TO_BASE10_SQUARED,
        DIGIT_TO_BASE11_SQUARED, DIGIT_TO_BASE12_SQUARED, DIGIT_TO_BASE13_SQUARED,
        DIGIT_TO_BASE14_SQUARED, DIGIT_TO_BASE15_SQUARED, DIGIT_TO_BASE16_SQUARED,
        DIGIT_TO_BASE17_SQUARED, DIGIT_TO_BASE18_SQUARED, DIGIT_TO_BASE19_SQUARED,
        DIGIT_TO_BASE20_SQUARED, DIGIT_TO_BASE21_SQUARED, DIGIT_TO_BASE22_SQUARED,
        DIGIT_TO_BASE23_SQUARED, DIGIT_TO_BASE24_SQUARED, DIGIT_TO_BASE25_SQUARED,
        DIGIT_TO_BASE26_SQUARED, DIGIT_TO_BASE27_SQUARED, DIGIT_TO_BASE28_SQUARED,
        DIGIT_TO_BASE29_SQUARED, DIGIT_TO_BASE30_SQUARED, DIGIT_TO_BASE31_SQUARED,
        DIGIT_TO_BASE32_SQUARED, DIGIT_TO_BASE33_SQUARED, DIGIT_TO_BASE34_SQUARED,
        DIGIT_TO_BASE35_SQUARED, DIGIT_TO_BASE36_SQUARED,
    };
}

mod sealed {
    /// The integer types. Only they implement `LexicalInteger`, so it may get further methods.
    pub trait Sealed {}

    impl Sealed for u8 {}
    impl Sealed for u16 {}
    impl Sealed for u32 {}
    impl Sealed for u64 {}
    impl Sealed for usize {}
    impl Sealed for i8 {}
    impl Sealed for i16 {}
    impl Sealed for i32 {}
    impl Sealed for i64 {}
    impl Sealed for isize {}
}

pub mod write {
    //! Writing the digits of a mantissa or of an exponent, without a sign.
    pub use crate::write_integer::write::WriteInteger;
}
