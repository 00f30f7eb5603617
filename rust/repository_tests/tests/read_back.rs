//! The standard library reads back what is written: random numbers of each type and radix, and the smallest and the
//! largest, with and without a required sign, in lowercase and with leading zeros.

use cojimuran::{
    BUFFER_SIZE, Digits, Formatted, Lower, NumberFormatBuilder, Options, PaddedDigits, Part, ToLexical,
    ToLexicalWithOptions, ZeroPadded,
};
use repository_tests::random::Random;
use std::str::from_utf8;

/// Reads numbers of a type back, from texts in each format without groups.
macro_rules! check_texts {
    ($($number:ty),+) => { $(
        let mut random = Random(1);
        for radix in 2..=36 {
            let plain = NumberFormatBuilder::from_radix(radix as u8);
            let builder = NumberFormatBuilder::new().mantissa_radix(radix as u8);
            let signed = builder.required_mantissa_sign(true).build_strict();
            let some = (0..200).map(|_| random.number() as $number);
            for number in some.chain([<$number>::MIN, <$number>::MAX, 0]) {
                for format in [&plain, &signed] {
                    let (mut buffer, mut lower) = ([0; BUFFER_SIZE], [0; BUFFER_SIZE]);
                    let text = number.to_lexical_with_options(&mut buffer, format, &Options::new());
                    assert_eq!(<$number>::from_str_radix(from_utf8(text).unwrap(), radix), Ok(number));
                    let lower = Lower(Formatted(number, format)).to_str(&mut lower);
                    assert_eq!(<$number>::from_str_radix(lower, radix), Ok(number));
                    assert_eq!(lower, from_utf8(text).unwrap().to_lowercase());
                    let mut buffer = [0; BUFFER_SIZE];
                    let zeros = ZeroPadded(Formatted(number, format), 9).to_str(&mut buffer);
                    assert_eq!(<$number>::from_str_radix(zeros, radix), Ok(number));
                }
                let mut buffer = [0; BUFFER_SIZE];
                assert_eq!(from_utf8(number.to_lexical(&mut buffer)).unwrap().parse(), Ok(number));
            }
        }
    )+ };
}

#[test]
fn texts() {
    check_texts!(u8, u16, u32, u64, usize, i8, i16, i32, i64, isize);
}

/// Reads numbers of an unsigned type back, from their digits and with leading zeros.
macro_rules! check_digits {
    ($($number:ty),+) => { $(
        let mut random = Random(2);
        for radix in 2..=36 {
            for _ in 0..200 {
                let (number, mut buffer) = (random.number() as $number, [0; 64]);
                let digits = Digits(radix, number).to_str(&mut buffer);
                assert_eq!(<$number>::from_str_radix(digits, radix), Ok(number));
                let padded = PaddedDigits(radix, number, 64).to_str(&mut buffer);
                assert_eq!(<$number>::from_str_radix(padded, radix), Ok(number));
            }
        }
    )+ };
}

#[test]
fn digits_and_leading_zeros() {
    check_digits!(u8, u16, u32, u64, usize);
}
