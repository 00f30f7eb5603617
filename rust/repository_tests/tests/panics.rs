//! Calls that panic in every build, since they would otherwise return a wrong result. The message of each names the
//! condition that does not hold. `short_buffers.rs` has the other calls with a buffer that is too short.

use cojimuran::algorithm::algorithm;
use cojimuran::compact::Compact;
use cojimuran::decimal::Decimal as _;
use cojimuran::digit_count::DigitCount;
use cojimuran::format::STANDARD;
use cojimuran::padded::write_padded;
use cojimuran::radix::{Radix, digit_to_char};
use cojimuran::write::WriteInteger;
use cojimuran::{
    Byte, Bytes, Digits, Displayed, Fixed, Hex, Joined, Left, NumberFormatBuilder, Padded, PaddedDigits, Part,
    PushPart, Right, ToLexical, TrimmedFixed, UnsignedInteger, jeaiii, table, write_field, write_with_length,
};
use repository_tests::calls::{check_in_time, panic_message};
use std::fmt;

/// A part whose text is shorter than its room.
#[derive(Clone, Copy)]
struct Short;

impl Part for Short {
    fn room(self) -> usize {
        9
    }

    fn write_to(self, buffer: &mut [u8]) -> usize {
        'a'.write_to(buffer)
    }
}

/// A value that cannot be formatted.
struct Never;

impl fmt::Display for Never {
    fn fmt(&self, _: &mut fmt::Formatter<'_>) -> fmt::Result {
        Err(fmt::Error)
    }
}

/// Takes rows `MESSAGE: CALL, ..;`. Checks that each call panics with a message that contains this one.
macro_rules! check_messages {
    ($($message:literal: $($call:expr),+;)+) => {
        $($(
            let message = panic_message(|| $call).unwrap_or_default();
            assert!(message.contains($message), "{}: {message:?}", stringify!($call));
        )+)+
    };
}

fn radices() {
    let (buffer, table) = (&mut [7; 128], table::get_table);
    check_messages! {
        "the radix is not from 2 to 36": NumberFormatBuilder::from_radix(37),
            NumberFormatBuilder::from_radix(1), 255u8.digit_count(u32::MAX), 255u8.slow_digit_count(1),
            u64::MAX.digit_count(0), table(37), table(1), table::get_table(37), 7i8.magnitude_digits(1),
            7u64.magnitude_digits(37), write_padded(0u8, 37, &mut []), write_with_length("a", 37, 1, 0, buffer),
            7u32.write_integer_signed(37, buffer);
        "radix": 7u32.write_integer(0, buffer), 7u8.radix(1, buffer),
            7u64.compact(37, buffer), 7u16.write_integer(255, buffer), 7u64.radix(u32::MAX, buffer),
            Digits(1, 7u8).write_to(buffer), algorithm(7u8, 37, table(36), buffer);
        "the table does not begin with the digit pairs of the radix":
            algorithm(7u32, 16, &table(16)[..511], buffer),
            algorithm(7u32, 12, table(13), buffer), algorithm(7u32, 13, table(12), buffer),
            algorithm(7u32, 2, table(36), buffer);
    }
}

fn formats() {
    let builder = NumberFormatBuilder::new();
    check_messages! {
        "the mantissa radix is not from 2 to 36": builder.radix(37).build_strict();
        "the exponent radix is not from 2 to 36": builder.exponent_radix(1).build_strict();
        "the group size is not from 1 to 64": builder.digit_grouping(0, b',').build_strict();
        "the separator is a letter, a digit or a sign": builder.digit_grouping(3, b'0').build_strict();
        "the count is above isize::MAX":
            builder.digit_grouping(1, b',').build_strict().grouped_len(usize::MAX / 2 + 1);
    }
}

fn parts() {
    let (buffer, not_utf8) = (&mut [7; 128], Bytes(&[200]));
    check_messages! {
        "radix": Digits(37, 7u8).room(), Digits(1, 7u8).text_len();
        "20 decimals, but at most 19": Fixed(7i64, 20).to_text(buffer), TrimmedFixed(7u8, 20).write_to(buffer),
            Fixed(7u8, 20).room(), TrimmedFixed(7u8, 20).room(), Fixed(7u8, 20).text_len();
        "90 decimals, but at most 19": Fixed(7u8, 90).to_str(buffer),
            Fixed(7u8, 90).try_write_to(buffer), Fixed(7u8, 90).write_to(buffer), Fixed(7u8, 90).write_at(1, buffer);
        "the number has more digits than the width": Padded(2026u16, 2).to_text(buffer),
            Padded(15u8, 1).try_to_str(buffer), Padded(1234567u32, 3).to_str(buffer),
            PaddedDigits(16, 256u32, 2).to_text(buffer), write_with_length(Padded(12u8, 1), 10, 1, 0, buffer),
            write_field(Padded(12u8, 1), 0, 1, buffer),
            Vec::new().push_part((1u8, Padded(10u8, 1)));
        "the text is not UTF-8": not_utf8.to_str(buffer), not_utf8.try_to_str(buffer);
        "has bytes that are not UTF-8": String::new().push_part(not_utf8);
        "the part is not valid": String::new().push_part(Digits(37, 7u8));
        "returned an error": String::new().push_part(Displayed(&Never));
        "capacity overflow": vec![1].push_part(Left("", usize::MAX, b' '));
    }
}

fn buffers() {
    let (buffer, list) = (&mut [7; 128], [7u8, 8]);
    check_messages! {
        "out of range": "ab".write_at(129, buffer), write_with_length("ab", 10, 129, 0, buffer);
        // Each of these texts would fit.
        "the buffer is shorter than the room of the part":
            7u64.to_str(&mut buffer[..19]), Hex(7u64).to_str(&mut buffer[..15]),
            ("id=", 7u64).to_str(&mut buffer[..22]), (true, 'a', "b").to_str(&mut buffer[..9]),
            7u64.to_text(&mut buffer[..19]), Hex(7u64).to_text(&mut buffer[..15]),
            Fixed(7u64, 2).to_str(&mut buffer[..20]), Right(7u8, 2, b' ').to_str(&mut buffer[..2]),
            Joined(&list, ",").to_str(&mut buffer[..6]), Some(7i8).to_str(&mut buffer[..3]),
            // Such a text is checked to be UTF-8.
            ("id=", &String::from("abc"), 7u64).to_str(&mut buffer[..25]), Short.to_str(&mut buffer[..8]),
            ("é", Byte(200), 7u64).to_str(&mut buffer[..22]);
        "the text does not have `count` bytes": write_field("ab", 0, 3, buffer);
        "the length and `extra` together are above usize::MAX":
            write_with_length("ab", 10, 20, usize::MAX - 1, buffer);
        "the number has more digits than the width": write_with_length("0123456789", 10, 1, 0, buffer),
            write_padded(10u8, 10, &mut buffer[..1]), write_padded(1u8, 16, &mut []);
    }
}

fn numbers() {
    let buffer = &mut [7; 128];
    check_messages! {
        "the number is 10^19 or above": u64::MAX.decimal_signed(buffer), jeaiii::from_i64(u64::MAX, buffer),
            u64::MAX.write_integer_signed(10, buffer), u64::MAX.write_mantissa_signed(&STANDARD, buffer),
            u64::MAX.write_exponent_signed(&STANDARD, buffer);
        "the type does not have the number": <u8 as UnsignedInteger>::from_u32(256),
            <u16 as UnsignedInteger>::from_u32(65_536);
        "the number is 2^32 or above": 0x1_0000_0000u64.as_u32();
        "n < 10_000": jeaiii::fixed_2(10_000);
        "n < 1_000_000": jeaiii::fixed_4(1_000_000);
        "n >= 1_000_000": jeaiii::fixed_6(999_999);
        "n < 100_000_000": jeaiii::fixed_6(100_000_000);
        "n >= 100_000_000": jeaiii::fixed_8_nine(99_999_999);
        "n < 1_000_000_000": jeaiii::fixed_8_nine(1_000_000_000);
        "n >= 1_000_000_000": jeaiii::fixed_8_ten(999_999_999), jeaiii::fixed_8_wide(999_999_999);
        "n < 10_000_000_000": jeaiii::fixed_8_wide(10_000_000_000);
        "out of bounds": digit_to_char(36), digit_to_char(u32::MAX);
        "by zero": 7u8.div_rem(0), 7u64.div_rem(0);
    }
    #[cfg(target_pointer_width = "64")]
    check_messages! { "the number is 10^19 or above": usize::MAX.decimal_signed(buffer); }
    #[cfg(target_pointer_width = "32")]
    check_messages! { "the number is above usize::MAX": 0x1_0000_0000u64.as_usize(); }
}

#[test]
fn each_call_panics_as_its_documentation_says() {
    check_in_time("a call whose condition does not hold", 60, || {
        for check_subject in [radices, formats, parts, buffers, numbers] {
            check_subject();
        }
    });
}
