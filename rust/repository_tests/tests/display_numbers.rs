//! Numbers in format strings, against what the standard library writes of its own integers: for the longest texts and
//! some others, in each width up to three more than the text.

use cojimuran::*;
use repository_tests::check_formats;
use repository_tests::formats::is_refused;
use std::fmt::{Display, Write};

/// Compares a part with an integer, with each of these options, in each width. The integer has a kind, such as `X`.
macro_rules! check_widths {
    ($part:expr, $number:expr, $kind:literal: $($options:literal)+) => { $(
        let longest = format!(concat!("{:", $kind, "}"), $number).len() + 3;
        for width in 0..=longest {
            let shown = format!(concat!("{:", $options, "1$}"), $part, width);
            let expected = format!(concat!("{:", $options, "1$", $kind, "}"), $number, width);
            assert_eq!(shown, expected, "in {:?}, width {width}", $options);
        }
    )+ };
}

/// No option makes a number fail. So those that are ignored are here too, and widths above each text.
const WIDE: [usize; 3] = [0, 300, 10_000];

macro_rules! check_decimals {
    ($($number:ty),+) => { $(
        for number in [<$number>::MIN, <$number>::MAX, 0, 1, 10, 99, <$number>::MAX / 7] {
            check_widths!(Decimal(number), number, "": "" "<" "^" ">" "*<" "é^" "0>" "+" "0" "+0" "<0");
            check_widths!(Decimal(number), number, "": "#" "-^+" "_^+0");
            check_formats!(Decimal(number), number, "{:.1}", "{:9.2}");
            for w in WIDE {
                check_formats!(Decimal(number), number, "{:#w$.9}", "{:+0w$.40}");
            }
        }
    )+ };
}

#[test]
fn decimal_numbers() {
    check_decimals!(u8, u16, u32, u64, usize, i8, i16, i32, i64, isize);
}

macro_rules! check_signed {
    ($($number:ty),+) => { $(
        for number in [<$number>::MIN, <$number>::MAX, 0, 1, 10, 99, <$number>::MAX / 7] {
            let plus = Plus(number);
            assert_eq!(format!("{plus}"), format!("{number:+}"));
            assert_eq!(format!("{plus:+}"), format!("{number:+}"));
            for w in 0..24 {
                assert_eq!(format!("{plus:w$}"), format!("{number:+w$}"));
                assert_eq!(format!("{plus:^w$}"), format!("{number:^+w$}"));
                assert_eq!(format!("{plus:x<w$}"), format!("{number:x<+w$}"));
                assert_eq!(format!("{plus:0w$}"), format!("{number:+0w$}"));
                assert_eq!(format!("{plus:<0w$}"), format!("{number:<+0w$}"));
            }
            for w in WIDE {
                assert_eq!(format!("{plus:#w$.9}"), format!("{number:+#w$.9}"));
                assert_eq!(format!("{plus:+#0w$.40}"), format!("{number:+#0w$.40}"));
            }
        }
    )+ };
}

#[test]
fn numbers_with_a_sign() {
    check_signed!(u8, u16, u32, u64, usize, i8, i16, i32, i64, isize);
}

macro_rules! check_digits {
    ($($number:ty),+) => { $(
        for number in [<$number>::MIN, <$number>::MAX, 1, 10, <$number>::MAX / 3] {
            check_widths!(Hex(number), number, "X": "" "<" "^" "*>" "+" "0" "+0");
            check_widths!(Binary(number), number, "b": "" "<" "^" "*>" "+" "0" "+0");
            check_widths!(Digits(16, number), number, "X": "" "<" "^" "*>" "+" "0" "+0");
            check_widths!(Digits(8, number), number, "o": "" "<" "^" "*>" "+" "0" "+0");
            check_widths!(InRadix::<8, _>(number), number, "o": "" "<" "^" "*>" "+" "0" "+0");
            assert_eq!(PaddedDigits(2, number, 64).to_string(), format!("{number:064b}"));
            assert_eq!(PaddedDigits(16, number, 16).to_string(), format!("{number:016X}"));
            // A `usize` has the width of a `u64` on every target.
            let width = if stringify!($number) == "usize" { 16 } else { <$number>::BITS as usize / 4 };
            let (part, text) = (FullHex(number), format!("{number:0width$X}"));
            assert_eq!(part.to_string(), text);
            for w in [0, 3, 20, 40] {
                assert_eq!(format!("{part:w$}"), format!("{text:>w$}"));
                assert_eq!(format!("{part:*^w$}"), format!("{text:*^w$}"));
            }
        }
    )+ };
}

#[test]
fn digits() {
    check_digits!(u8, u16, u32, u64, usize);
}

#[test]
fn numbers_in_formats() {
    const THOUSANDS: NumberFormat =
        NumberFormatBuilder::new().required_mantissa_sign(true).digit_grouping(3, b',').build_strict();
    let number = Formatted(1234567i64, &THOUSANDS);
    assert_eq!(format!("{number}"), "+1,234,567");
    assert_eq!(format!("{number:012}"), "+001,234,567");
    assert_eq!(format!("{number:12}"), "  +1,234,567");
    assert_eq!(format!("{number:<12}"), "+1,234,567  ");
    assert_eq!(format!("{number:+.2}"), "+1,234,567");
    let number = Formatted(-1234567i64, &THOUSANDS);
    assert_eq!(format!("{number:#012}"), "-001,234,567");
    assert_eq!(format!("{number:^12}"), " -1,234,567 ");
    let longest = NumberFormatBuilder::new()
        .mantissa_radix(2)
        .required_mantissa_sign(true)
        .digit_grouping(1, b'.')
        .build_strict();
    assert_eq!(format!("{:>130}", Formatted(i64::MIN, &longest)).trim_start().len(), 128);
    assert_eq!(format!("{:0130}", Formatted(u64::MAX, &longest)).matches('0').count(), 2);
}

/// Returns a number of units of 10^-`decimals`.
fn units(number: i128, decimals: usize) -> String {
    let digits = format!("{:0>width$}", number.unsigned_abs(), width = decimals + 1);
    let (whole, rest) = digits.split_at(digits.len() - decimals);
    let (sign, point) = (if number < 0 { "-" } else { "" }, if decimals > 0 { "." } else { "" });
    format!("{sign}{whole}{point}{rest}")
}

/// Returns the text without zeros at the end of its fraction.
fn without_zeros(text: &str) -> &str {
    if text.contains('.') { text.trim_end_matches('0').trim_end_matches('.') } else { text }
}

fn check_amount(part: impl Display, text: &str) {
    assert_eq!(part.to_string(), text);
    assert_eq!(format!("{part:30}"), format!("{text:>30}"));
    assert_eq!(format!("{part:*^30}"), format!("{text:*^30}"));
    let zeros = "0".repeat(30 - text.len());
    let padded = text.strip_prefix('-').map_or(format!("{zeros}{text}"), |rest| format!("-{zeros}{rest}"));
    assert_eq!(format!("{part:030}"), padded);
}

macro_rules! check_amounts {
    ($($number:ty),+) => { $(
        for number in [<$number>::MIN, <$number>::MAX, 0, 1, 99, 100, <$number>::MAX / 7] {
            for decimals in 0..=19 {
                let text = units(number.into(), decimals);
                check_amount(Fixed(number, decimals), &text);
                check_amount(TrimmedFixed(number, decimals), without_zeros(&text));
            }
        }
    )+ };
}

#[test]
fn amounts() {
    check_amounts!(u8, u16, u32, u64, i8, i16, i32, i64);
}

#[test]
fn amounts_in_groups() {
    let ones = NumberFormatBuilder::new().digit_grouping(1, b',').build_strict();
    let longest = |decimals| GroupedFixed(u64::MAX, decimals, &ones).to_string();
    assert_eq!((0..=19).map(|decimals| longest(decimals).len()).max(), Some(39));
    for decimals in 0..=19 {
        assert_eq!(longest(decimals).replace(',', ""), units(u64::MAX.into(), decimals));
        let signed = GroupedFixed(i64::MIN, decimals, &ones).to_string();
        assert_eq!(signed.replace(',', ""), units(i64::MIN.into(), decimals));
    }
}

#[test]
fn padded_numbers() {
    for number in [0, 9, 10, 12345, u64::MAX] {
        let digits = number.to_string().len();
        for width in (digits..=70).chain([255, 256, 257, 1000]) {
            let (part, text) = (Padded(number, width), format!("{number:0width$}"));
            assert_eq!(part.to_string(), text);
            assert_eq!(Shown(part).to_string(), text);
            assert_eq!(format!("{part:70}"), format!("{text:>70}"));
            check_formats!(part, text, "{:*^300}", "{:<260}", "{:é>260}");
            assert_eq!(format!("{part:.9}"), text);
            assert_eq!(format!("{part:+}"), format!("+{text}"));
            assert_eq!(format!("{part:+300}"), format!("{:>300}", format!("+{text}")));
            assert_eq!(format!("{part:0300}"), format!("{number:0width$}", width = width.max(300)));
            assert_eq!(format!("{part:+0300}"), format!("+{number:0width$}", width = width.max(299)));
        }
    }
    assert_eq!(format!("{:05}", Padded(7u8, 3)), "00007");
    assert_eq!(format!("{:+}", Padded(7u16, 3)), "+007");
    assert_eq!(format!("{}", Padded(7u32, 3)), "007");
}

/// The number 0 has no digits in no width.
#[test]
fn zero_in_no_width() {
    assert_eq!(format!("{}", Padded(0u8, 0)), "");
    assert_eq!(format!("{:3}", Padded(0u8, 0)), "   ");
    assert_eq!(format!("{:+03}", Padded(0u8, 0)), "+00");
}

#[test]
fn padded_digits() {
    assert_eq!(PaddedDigits(2, u64::MAX, 300).to_string(), format!("{:0300b}", u64::MAX));
    assert_eq!(format!("{:_>300}", PaddedDigits(16, 255u8, 200)), format!("{:_>300}", format!("{:0200X}", 255)));
    // The largest number of the width, and one more.
    for (radix, width, most) in [(7, 23, u64::MAX), (7, 22, 7u64.pow(22) - 1), (3, 2, 8), (36, 12, 36u64.pow(12) - 1)] {
        let part = PaddedDigits(radix, most, width);
        assert_eq!(u64::from_str_radix(format!("{part:>70}").trim_start(), radix), Ok(most));
        assert_eq!((part, "").to_str(&mut [0; 23]).len(), width);
        let more = PaddedDigits(radix, most.saturating_add(1), width);
        assert_eq!(write!(String::new(), "{more}").is_ok(), most == u64::MAX);
    }
}

#[test]
fn numbers_that_are_refused() {
    assert!(is_refused(Digits(37, 5u8)) && is_refused(Fixed(7u8, 20)));
    for part in [Padded(10u64, 1), Padded(1, 0)] {
        assert!(is_refused(part), "{part:?}");
    }
    for part in [PaddedDigits(1, 0u8, 2), PaddedDigits(37, 0, 2), PaddedDigits(16, 16, 1), PaddedDigits(2, 1, 0)] {
        assert!(is_refused(part), "{part:?}");
    }
}

/// `to_string` cannot return the error.
#[test]
#[should_panic(expected = "a Display implementation returned an error unexpectedly")]
fn a_string_of_a_number_that_is_refused() {
    drop(Fixed(7u8, 20).to_string());
}
