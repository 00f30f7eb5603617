//! Every number of the types of 8 and 16 bits, in every radix, against divisions by the radix.

use cojimuran::{NumberFormatBuilder, Options, ToLexicalWithOptions};
use std::iter::successors;

/// Returns the characters of a number, the last one first.
fn reversed(number: i64, radix: u32) -> impl Iterator<Item = u8> {
    let divided = move |left: &u32| if *left < radix { None } else { Some(left / radix) };
    let digit = move |left| b"0123456789ABCDEFGHIJKLMNOPQRSTUVWXYZ"[(left % radix) as usize];
    successors(Some(number.unsigned_abs() as u32), divided).map(digit).chain((number < 0).then_some(b'-'))
}

fn check<T: ToLexicalWithOptions<Options = Options> + Into<i64>>(numbers: impl Iterator<Item = T> + Clone) {
    for radix in 2..=36 {
        let format = NumberFormatBuilder::from_radix(radix);
        for number in numbers.clone() {
            let mut buffer = [7; 40];
            let length = number.to_lexical_with_options(&mut buffer, &format, &Options::new()).len();
            let is_text = buffer[..length].iter().copied().rev().eq(reversed(number.into(), radix.into()));
            let is_rest_same = buffer[length..].iter().all(|byte| *byte == 7);
            assert!(is_text && is_rest_same, "{} in radix {radix}: {buffer:?}", number.into());
        }
    }
}

#[test]
fn every_u8_and_i8() {
    check(0..=u8::MAX);
    check(i8::MIN..=i8::MAX);
}

#[test]
fn every_u16() {
    check(0..=u16::MAX);
}

#[test]
fn every_i16() {
    check(i16::MIN..=i16::MAX);
}
