//! Texts in format strings, against what the standard library writes of a `&str`: of tuples, lists and columns, of long
//! texts, which are written in pieces, and of each part.

use cojimuran::*;
use repository_tests::each_part;
use repository_tests::formats::{check_shown, check_text};
use repository_tests::parts::{LONGEST, Values};
use std::fmt::Display;

#[test]
fn parts_of_parts() {
    check_text(("id=", 7u8, " flags=0x", Hex(255u16)), "id=7 flags=0xFF");
    check_text(
        (1u8, ("é", -2i64), (3u16, "€", 4usize), Some(5u32), None::<u8>, '𝄞', true, false),
        "1é-23€45𝄞truefalse",
    );
    check_text(Joined(&["ä", "", "b"], " · "), "ä ·  · b");
    check_text(Joined(&[0u8; 0], ", "), "");
    check_text((Bytes("ö".as_bytes()), Byte(b'!'), Sign(-5i8, false), &Plus(5u8)), "ö!-+5");
    check_text(Scientific(1500u16, 0), "1.5e3");
}

/// These have more than the room of 256 bytes, and are written element by element.
#[test]
fn long_parts_of_parts() {
    let many = [u64::MAX; 40];
    let expected = format!("<{}>", many.map(|number| number.to_string()).join(", "));
    assert_eq!(Shown(("<", Joined(&many, ", "), ">")).to_string(), expected);
    assert_eq!(Joined(&many, "").to_string().len(), 800);
    assert_eq!(Shown((&*"ab".repeat(400), Bytes(&[b'c'; 400]))).to_string().len(), 1200);
    let twelve = (1u8, 2u8, 3u8, 4u8, 5u8, 6u8, 7u8, 8u8, 9u8, 10u8, &*"-".repeat(300), 12u8);
    assert_eq!(Shown(twelve).to_string(), format!("12345678910{}12", "-".repeat(300)));
    assert_eq!(HexBytes(&[7; 200], "").to_string(), "07".repeat(200));
    assert_eq!(Lower(&*"Ab".repeat(150)).to_string(), "ab".repeat(150));
    assert_eq!(format!("{:>10}", Joined(&[1u64; 100], ",")), vec!["1"; 100].join(","));
}

#[test]
fn columns_and_others() {
    assert_eq!(Left(5u8, 3, b'.').to_string(), "5..");
    assert_eq!(Right(5u8, 3, b'.').to_string(), "..5");
    assert_eq!(Center("é", 6, b'-').to_string(), "--é--");
    assert_eq!(ZeroPadded(-42, 6).to_string(), "-00042");
    assert_eq!(format!("{:>7}", ZeroPadded(Plus(7), 4)), "   +007");
    assert_eq!(format!("{:<7}", Lower(Digits(36, 1000u64))), "rs     ");
    assert_eq!(OrElse(Some(5u8), "n/a").to_string(), "5");
    assert_eq!(OrElse(None::<u8>, "n/a").to_string(), "n/a");
    assert_eq!(HexBytes(&[1, 171], ":").to_string(), "01:AB");
}

/// Lengths of texts near those at which a piece ends: 64 bytes in lowercase, and otherwise 256.
fn lengths() -> impl Iterator<Item = usize> {
    (0..4).chain(61..68).chain(125..131).chain(252..260).chain([513, 5000])
}

/// Returns as much of a repeated pattern as fits in this many bytes.
fn text_of(pattern: &str, length: usize) -> String {
    let end = (0..=length).rev().find(|end| pattern.repeat(length).is_char_boundary(*end)).unwrap();
    pattern.repeat(length)[..end].to_owned()
}

#[test]
fn long_texts() {
    for length in lengths() {
        for text in ["a", "AÄ", "x€", "𝄞y"].map(|pattern| text_of(pattern, length)) {
            let count = text.chars().count();
            for n in [0, 63, count / 2, count.saturating_sub(1), count, count + 1, 5200] {
                check_shown((&*text, ""), &text, n);
                check_shown(Lower(&*text), &text.to_ascii_lowercase(), n);
                check_shown(("<", Bytes(text.as_bytes()), Some(">")), &format!("<{text}>"), n);
            }
            check_shown(Joined(&text.chars().collect::<Vec<_>>(), ""), &text, count / 2);
            let spaces = length + 9 - text.len();
            assert_eq!(Left(&*text, length + 9, b'.').to_string(), format!("{text}{}", ".".repeat(spaces)));
            assert_eq!(Right(Lower(&*text), 9, b'.').to_string().len(), text.len().max(9));
        }
        let bytes = vec![0xAB; length];
        check_shown(HexBytes(&bytes, ""), &"AB".repeat(length), length);
        check_shown(HexBytes(&bytes, ", "), &vec!["AB"; length].join(", "), length + 5);
    }
}

#[test]
fn long_numbers_with_zeros() {
    for number in [0, 7, -7, 1234567, i64::MIN, i64::MAX] {
        for width in [0, 1, 9, 20, 255, 256, 257, 300, 4000] {
            assert_eq!(ZeroPadded(number, width).to_string(), format!("{number:0width$}"));
            let magnitude = number.unsigned_abs();
            let plus = ZeroPadded(Joined(&[("+", magnitude)], ""), width).to_string();
            assert_eq!(plus, format!("{magnitude:+0width$}"));
        }
    }
    // The sign is in the first piece that is not empty.
    let pieces = ("", Joined(&["", "-", ""], ""), "12", 3u8);
    assert_eq!(ZeroPadded(pieces, 300).to_string(), format!("-{:0299}", 123));
    assert_eq!(ZeroPadded(("", ""), 300).to_string(), "0".repeat(300));
    assert_eq!(format!("{:>305}", ZeroPadded("+", 300)), format!("     +{}", "0".repeat(299)));
}

/// A part that is an argument of a format string.
struct Argument<P>(P);

/// A part is shown by its own `Display`. If it has none, a call finds the method of a reference, which uses `Shown`.
trait FormatTexts {
    fn texts(&self) -> [String; 2];
}

impl<P: Display> FormatTexts for Argument<P> {
    fn texts(&self) -> [String; 2] {
        [self.0.to_string(), format!("{:*^99}", self.0)]
    }
}

impl<P: Show> FormatTexts for &Argument<P> {
    fn texts(&self) -> [String; 2] {
        Argument(Shown(self.0)).texts()
    }
}

macro_rules! check_in_format_strings {
    ($v:ident; $($room:literal, $text:literal => $part:expr $(, where $($field:ident = $value:expr),+)?;)+) => { $(
        let $v = Values { $($($field: $value,)+)? ..LONGEST };
        _ = $v;
        let expected = [$text.to_owned(), format!("{:*^99}", $text)];
        assert_eq!((&Argument($part)).texts(), expected, "{{}} of {}", stringify!($part));
        assert_eq!(Argument(Shown($part)).texts(), expected, "{{}} of a Shown({})", stringify!($part));
    )+ };
}

#[test]
fn each_part_in_format_strings() {
    each_part!(check_in_format_strings);
}
