//! Parts of a caller in format strings, and parts that are refused there.

use cojimuran::*;
use repository_tests::formats::{check_text, is_refused};
use std::fmt::Write;

/// A caller's own part, which is valid if its number is not the least one.
#[derive(Clone, Copy)]
struct OwnNumber(i64);

impl Part for OwnNumber {
    fn room(self) -> usize {
        20
    }

    fn write_to(self, buffer: &mut [u8]) -> usize {
        self.0.write_to(buffer)
    }
}

impl Show for OwnNumber {
    fn is_showable(self) -> bool {
        self.0 != i64::MIN
    }
}

#[test]
fn own_numbers() {
    check_text(OwnNumber(7), "7");
    check_text((OwnNumber(5), "!"), "5!");
    check_text(("a", OwnNumber(7), "!", Some(OwnNumber(42)), &OwnNumber(9)), "a7!429");
    check_text(Joined(&[OwnNumber(1), OwnNumber(200)], ", "), "1, 200");
    check_text(Joined(&[OwnNumber(100); 100], ""), &"100".repeat(100));
    let five = OwnNumber(5);
    check_text((Left(five, 3, b'.'), Right(five, 3, b'.'), ZeroPadded(five, 3), Lower(five)), "5....50055");
}

#[test]
fn own_numbers_with_zeros() {
    for number in [0, 7, -7, 1234567, i64::MAX] {
        for width in [0, 1, 9, 20, 255, 256, 257, 300, 4000] {
            let part = (ZeroPadded(OwnNumber(number), width), "!");
            assert_eq!(Shown(part).to_string(), format!("{number:0width$}!"));
        }
    }
}

/// A caller's own part with a long text, whose length it does not say.
#[derive(Clone, Copy)]
struct OwnText<'a>(&'a str);

impl Part for OwnText<'_> {
    fn room(self) -> usize {
        2 * self.0.len()
    }

    fn write_to(self, buffer: &mut [u8]) -> usize {
        (self.0, self.0).write_to(buffer)
    }
}

impl Show for OwnText<'_> {
    fn is_showable(self) -> bool {
        true
    }

    fn write_pieces<O: Write>(self, out: &mut O) -> std::fmt::Result {
        (self.0, self.0).write_pieces(out)
    }
}

#[test]
fn columns_of_own_texts() {
    for length in [0, 1, 100, 128, 129, 400] {
        let text = "-é".repeat(length);
        let (part, whole) = (OwnText(&text), text.repeat(2));
        for width in [0, 3, whole.len(), whole.len() + 1, whole.len() + 300] {
            let added = width.saturating_sub(whole.len());
            let dots = |count: usize| ".".repeat(count);
            assert_eq!(Left(part, width, b'.').to_string(), whole.clone() + &dots(added));
            assert_eq!(Right(part, width, b'.').to_string(), dots(added) + &whole);
            let centre = dots(added / 2) + &whole + &dots(added - added / 2);
            assert_eq!(Center(part, width, b'.').to_string(), centre);
            let zeros = "0".repeat(added);
            let number = whole.strip_prefix('-').map_or(zeros.clone(), |rest| format!("-{zeros}{rest}"));
            assert_eq!(ZeroPadded(part, width).to_string(), number);
        }
    }
}

fn check_refused<P: Show>(part: P) {
    assert!(is_refused(Shown(part)));
    assert!(part.write_pieces(&mut String::new()).is_err());
}

/// Checks a part that is refused, and parts that contain it.
fn check_each_refused<P: Show>(part: P) {
    check_refused(part);
    check_refused((1u8, part));
    check_refused(Some(part));
    check_refused(OrElse(None::<u8>, part));
    check_refused(Joined(&[part, part], ","));
    check_refused::<&P>(&part);
    for width in [5, 300] {
        check_refused(Left(part, width, b' '));
        check_refused(Right(part, width, b' '));
        check_refused(Center(part, width, b' '));
        check_refused(ZeroPadded(part, width));
    }
    check_refused(Lower(part));
    // What is not written is not asked for.
    assert_eq!(OrElse(Some(7u8), part).to_string(), "7");
}

#[test]
fn parts_that_are_refused() {
    check_each_refused(OwnNumber(i64::MIN));
    check_each_refused(Digits(37, 1u8));
    check_each_refused(Fixed(1u8, 20));
    check_each_refused(Padded(10u8, 1));
    check_each_refused(PaddedDigits(16, 16u8, 1));
    check_each_refused(Byte(128));
    check_each_refused(Bytes(&[200]));
    check_refused((Byte(0xC3), Byte(0xA9)));
    check_refused(Left(1u8, 2, 128));
    check_refused(Joined(&[Padded(1u8, 1), Padded(10, 1)], ","));
}
