//! Random parts, nested three deep: `text_len` is the length of what is written, a buffer of that length is long
//! enough, one that is a byte shorter stays as it is, and `{}` writes the same text. `RANDOM_PARTS=10000000` tries so
//! many.

use cojimuran::*;
use repository_tests::random::Random;
use std::fmt::Debug;
use std::thread;

const THOUSANDS: NumberFormat = NumberFormatBuilder::new().digit_grouping(3, b',').build_strict();

/// Returns some of the characters of a text.
fn text(random: &mut Random) -> &'static str {
    const TEXT: &str = "Grüße, 𝄞 ABC-def +1 · 0123456789";
    let mut ends = [random.below(20) as usize, random.below(20) as usize];
    ends.sort();
    let at = |count: usize| TEXT.char_indices().nth(count).map_or(TEXT.len(), |(index, _)| index);
    &TEXT[at(ends[0])..at(ends[1])]
}

/// What a test needs of a part.
trait Tried {
    fn try_part(self, random: &mut Random);
}

impl<P: Show + Debug> Tried for P {
    fn try_part(self, random: &mut Random) {
        let mut buffer = vec![b'?'; self.room() + 2];
        let length = self.write_to(&mut buffer);
        assert_eq!(self.text_len(), Some(length), "{self:?}");
        assert!(length <= self.room() && buffer[length..].iter().all(|byte| *byte == b'?'), "{self:?}");
        let fits = self.room() <= 256 || length == self.room();
        let mut exact = vec![b'?'; length];
        assert_eq!(self.try_write_to(&mut exact), fits.then_some(length), "{self:?}");
        let is_right = if fits { exact == buffer[..length] } else { exact.iter().all(|byte| *byte == b'?') };
        assert!(is_right, "{self:?}");
        if let Some(short) = length.checked_sub(1) {
            let mut shorter = vec![b'?'; short];
            assert_eq!(self.try_write_to(&mut shorter), None, "{self:?}");
            assert_eq!(self.try_to_str(&mut shorter), None, "{self:?}");
            assert!(shorter.iter().all(|byte| *byte == b'?'), "{self:?}");
        }
        let text = std::str::from_utf8(&buffer[..length]).unwrap();
        if random.below(8) == 0 {
            let width = random.below(300) as usize;
            assert_eq!(Shown(self).to_string(), text, "{self:?}");
            assert_eq!(format!("{:é^width$.9}", Shown(self)), format!("{text:é^width$.9}"), "{self:?}");
        }
    }
}

fn leaf(random: &mut Random, level: u8) {
    let number = random.number();
    let signed = (number as i64).wrapping_neg();
    let small = random.below(20) as usize;
    let radix = 2 + random.below(35) as u32;
    let character = char::from_u32(number as u32 % 0xD800).unwrap();
    let bytes = number.to_le_bytes();
    // rustc makes functions for each type, so several parts are in one tuple.
    match random.below(7) {
        0 => node(&number, random, level),
        1 => node(&text(random), random, level),
        2 => node(&(number as u8, number as u16, signed as i32, signed, Decimal(number as i8)), random, level),
        3 => {
            let digits = (Digits(radix, number), InRadix::<7, _>(number), Hex(number), Binary(number as u32));
            node(&(Plus(signed as i16), digits), random, level)
        }
        4 => {
            let padded = (Padded(number as u32, 10 + small * small), PaddedDigits(3, number as u8, 6 + small));
            node(&padded, random, level)
        }
        5 => {
            let fixed = (Fixed(signed, small), GroupedFixed(signed as i32, small, &THOUSANDS));
            let rest = (TrimmedFixed(signed / 100 * 100, small), Scientific(signed / 1000 * 1000, number as i32));
            node(&(fixed, rest, Formatted(signed, &THOUSANDS)), random, level)
        }
        _ => {
            let hex = HexBytes(&bytes[..small.min(8)], text(random));
            let sign = Sign(signed, number % 2 == 0);
            node(&(hex, sign, number % 3 == 0, character, Byte(number as u8 % 128)), random, level)
        }
    }
}

// A part is in others by reference, because a reference is written by a call: so rustc compiles its code once.

fn node<P: Show + Debug>(part: &P, random: &mut Random, level: u8) {
    let width = random.below(30) as usize;
    let is_there = random.below(2) == 0;
    match random.below(if level == 0 { 1 } else { 9 }) {
        0 => part.try_part(random),
        1 => inner(&(part, text(random), part), random, level),
        2 => inner(&Joined(&[part; 4][..width % 5], text(random)), random, level),
        3 => inner(&Left(part, width, b'.'), random, level),
        4 => inner(&Right(part, width, b' '), random, level),
        5 => inner(&Center(part, width, b'*'), random, level),
        6 => inner(&ZeroPadded(part, width), random, level),
        7 => inner(&Lower(part), random, level),
        _ => inner(&(is_there.then_some(part), OrElse(is_there.then_some(part), "n/a")), random, level),
    }
}

fn inner<P: Show + Debug>(part: &P, random: &mut Random, level: u8) {
    let width = random.below(90) as usize;
    match random.below(if level == 1 { 1 } else { 5 }) {
        0 => part.try_part(random),
        1 => Joined(&[part; 3][..width % 4], ", ").try_part(random),
        2 => Right(("<", part, ">"), width, b'_').try_part(random),
        3 => (Lower(Left(part, width, b'X')), Some(part)).try_part(random),
        _ => ZeroPadded(Center(part, width, b'0'), 60).try_part(random),
    }
}

#[test]
fn random_parts() {
    let count = std::env::var("RANDOM_PARTS").map_or(20_000, |count| count.parse().unwrap());
    let try_all = move || {
        let mut random = Random(1);
        for _ in 0..count {
            let level = random.below(3) as u8;
            leaf(&mut random, level);
        }
    };
    // A debug build has all parts of a function on its stack.
    thread::Builder::new().stack_size(1 << 26).spawn(try_all).unwrap().join().unwrap();
}
