//! Each `&str` of a part is UTF-8, whatever the part and the buffer. Parts of the package are not checked by std where
//! their values show it; those of a caller are.

use cojimuran::*;
use cojimuran::{Buffer, NumberFormatBuilder};
use repository_tests::each_part;
use repository_tests::parts::Values;
use repository_tests::random::Random;
use repository_tests::sources::{has_word, texts_of_cojimuran};
use std::panic::{AssertUnwindSafe, catch_unwind, set_hook};
use std::str::from_utf8;

/// A part of a caller, with any bytes.
#[derive(Clone, Copy)]
struct OwnBytes<'a>(&'a [u8]);

impl Part for OwnBytes<'_> {
    fn room(self) -> usize {
        self.0.len()
    }

    fn write_to(self, buffer: &mut [u8]) -> usize {
        buffer[..self.0.len()].copy_from_slice(self.0);
        self.0.len()
    }
}

/// Writes a part to buffers of several lengths, each of bytes that are not UTF-8. The call panics, or the text is UTF-8
/// and that of `to_text`.
fn check<P: Part>(part: P) {
    check_calls(&|buffer| part.to_text(buffer).to_vec(), &|buffer| part.to_str(buffer).as_bytes().to_vec());
}

fn check_calls(to_text: &dyn Fn(&mut [u8]) -> Vec<u8>, to_str: &dyn Fn(&mut [u8]) -> Vec<u8>) {
    let text = catch_unwind(AssertUnwindSafe(|| to_text(&mut [0xFF; 400]))).ok();
    let longest = text.as_ref().map_or(60, Vec::len);
    let is_utf8 = text.as_ref().is_some_and(|text| from_utf8(text).is_ok());
    for length in [400, longest, longest.saturating_sub(1), longest / 2, 0] {
        match catch_unwind(AssertUnwindSafe(|| to_str(&mut vec![0xFF; length]))) {
            Ok(found) => assert!(from_utf8(&found).is_ok() && Some(&found) == text.as_ref()),
            Err(_) => assert!(length < 400 || !is_utf8, "{text:?}"),
        }
    }
}

/// Checks a part, and parts that contain it.
fn check_in<P: Part>(part: P, width: usize, fill: u8) {
    check(part);
    check(Left(part, width, fill));
    check(Right((part, "é"), width, fill));
    check(Center(Some(part), width, fill));
    check(ZeroPadded(Lower(part), width));
    check(OrElse(None::<u8>, part));
    check(OrElse(Some(part), Byte(fill)));
    check(Joined(&[part, part, part], ", "));
    check((part, 2u16, "3", part, 5u64, part, 7i8, part, 9i32, "10", Hex(fill), part));
}

/// Panics of the package print nothing: there are many.
fn be_silent() {
    set_hook(Box::new(|panic| {
        if panic.location().is_some_and(|location| location.file().ends_with("utf8.rs")) {
            eprintln!("{panic}");
        }
    }));
}

#[test]
fn each_str_is_utf8() {
    be_silent();
    let random = &mut Random(9);
    let groups =
        NumberFormatBuilder::new().radix(7).required_mantissa_sign(true).digit_grouping(2, b'~').build_strict();
    // The variable ROUNDS asks for more.
    let rounds = std::env::var("ROUNDS").map_or(12, |rounds| rounds.parse().unwrap());
    for _ in 0..rounds {
        let (bits, small) = (random.number(), random.bits() >> 20);
        let (width, fill) = ((small % 40) as usize, (random.bits() >> 40) as u8);
        let bytes: Vec<u8> = (0..small % 5).map(|_| (random.bits() >> 30) as u8).collect();
        let values = Values { bits, small, width, fill, bytes: &bytes, groups: &groups };
        macro_rules! check_each {
            ($v:ident; $($room:literal, $text:literal => $part:expr $(, where $($field:ident = $value:expr),+)?;)+) => {
                let $v = values;
                $(check_in($part, width, fill);)+
            };
        }
        each_part!(check_each);
        check_in(bits as usize, width, fill);
        check_in(bits as isize, width, fill);
        check_in(OwnBytes(&bytes), width, fill);
        check_in(OwnBytes(b"own"), width, fill);
        check_in(OwnBytes(&[200]), width, fill);
        let text = Buffer::new().format(bits as i64).to_owned();
        assert_eq!(text, (bits as i64).to_string());
    }
}

/// Parts that contain one whose bytes are not UTF-8 panic.
#[test]
fn bad_bytes_never_become_a_str() {
    be_silent();
    fn panics<P: Part>(part: P) {
        assert!(catch_unwind(AssertUnwindSafe(|| part.to_str(&mut [b'a'; 200]).len())).is_err());
        assert!(catch_unwind(AssertUnwindSafe(|| part.try_to_str(&mut [b'a'; 200]).map(str::len))).is_err());
    }
    for bytes in [&[200][..], &[0xC3], &[b'a', 0xE2, 0x82], &[0xED, 0xA0, 0x80], &[0xF5]] {
        panics(OwnBytes(bytes));
        panics(Bytes(bytes));
        panics(("id=", OwnBytes(bytes), 5u8));
        panics((1u8, (2u8, Bytes(bytes), 3u8)));
        panics(Joined(&[OwnBytes(b"a"), OwnBytes(bytes)], ","));
        panics(Some(OwnBytes(bytes)));
        panics(OrElse(None::<u8>, OwnBytes(bytes)));
        panics(Left(OwnBytes(bytes), 9, b' '));
        panics(ZeroPadded(Bytes(bytes), 9));
        panics(Lower(OwnBytes(bytes)));
        panics(Some(&OwnBytes(bytes)));
    }
    panics(Byte(128));
    panics(Left(5u8, 3, 200));
    panics(Right("a", 3, 255));
    panics(Center(Hex(5u8), 4, 128));
    // The halves of a character are UTF-8 together.
    assert_eq!((Byte(0xC3), Byte(0xA9)).to_str(&mut [0; 2]), "é");
    assert_eq!((OwnBytes(&[0xC3]), Bytes(&[0xA9])).to_str(&mut [0; 2]), "é");
}

/// Only this line could make a `&str` of other bytes.
#[test]
fn one_line_is_unsafe() {
    let sources = texts_of_cojimuran();
    let lines = sources.iter().flat_map(|source| source.lines()).filter(|line| has_word(line, "unsafe"));
    assert_eq!(lines.map(str::trim).collect::<Vec<_>>(), ["unsafe { from_utf8_unchecked(text) }"]);
}
