//! Buffers that are too short. A call panics, or writes a text that fits all the same, and changes no byte outside of
//! its buffer.

use cojimuran::algorithm::algorithm;
use cojimuran::buffer::{copy_to_front, front_mut};
use cojimuran::compact::Compact;
use cojimuran::decimal::Decimal as _;
use cojimuran::format::STANDARD;
use cojimuran::radix::Radix;
use cojimuran::write::WriteInteger;
use cojimuran::{
    Decimal, Joined, NumberFormatBuilder, Options, Padded, Part, ToLexical, ToLexicalWithOptions, group_digits, jeaiii,
    table, write_field, write_sign, write_with_length,
};
use lexwrite::lines::join;
use repository_tests::calls::{check_in_time, with_buffer};

/// Calls with buffers that are too short, or just long enough. A call panics, or writes the text that fits all the
/// same. To a longer buffer it writes the text, and leaves what follows as it was.
fn check_short(text: &[u8], call: impl Fn(&mut [u8]) -> usize) {
    for length in 0..=text.len() {
        if let Some((_, written)) = with_buffer(length, &call) {
            assert_eq!(written, text, "with {length} bytes");
        }
    }
    let (count, written) = with_buffer(100, &call).unwrap();
    let (start, rest) = written.split_at(text.len());
    assert_eq!((count, start), (text.len(), text));
    assert!(rest.iter().all(|byte| *byte == 7), "what follows {text:?}: {rest:?}");
}

/// Takes rows `TEXT => CALL, ..;`, and checks the calls, which write this text.
macro_rules! check_each_short {
    ($($text:expr => $($call:expr),+;)+) => { $($(check_short($text, $call);)+)+ };
}

/// Checks calls of each function with a buffer.
fn check_each_function() {
    let hexadecimal = NumberFormatBuilder::from_radix(16);
    let signed = NumberFormatBuilder::new().required_mantissa_sign(true).build_strict();
    let thousands = NumberFormatBuilder::new().digit_grouping(3, b',').build_strict();
    let ones = NumberFormatBuilder::new().required_mantissa_sign(true).digit_grouping(1, b'_').build_strict();
    let options = Options::new();
    let digits = &b"18446744073709551615"[..];
    let table = table::get_table;
    check_each_short! {
        b"abc" => |b| copy_to_front(b"abc", b);
        &[7; 9] => |b| front_mut(b, 9).len();
        &[7, b',', 7, 7, 7] => |b| group_digits(4, &thousands, b);
        b"255" => |b| 255u8.decimal(b), |b| jeaiii::from_u8(255, b), |b| 255u8.write_lexical(b);
        b"65535" => |b| 65535u16.decimal(b), |b| jeaiii::from_u16(65535, b), |b| 65535u16.write_text(b, &STANDARD);
        b"4294967295" => |b| u32::MAX.decimal(b), |b| jeaiii::from_u32(u32::MAX, b), |b| u32::MAX.write_integer(10, b);
        digits => |b| u64::MAX.decimal(b), |b| jeaiii::from_u64(u64::MAX, b),
            |b| u64::MAX.write_magnitude(&STANDARD, b),
            |b| u64::MAX.write_mantissa(&STANDARD, b), |b| u64::MAX.write_exponent(&STANDARD, b),
            |b| Decimal(u64::MAX).write_to(b), |b| Decimal(u64::MAX).to_str(b).len(),
            |b| u64::MAX.to_lexical(b).len();
        &digits[..19] => |b| 1844674407370955161u64.decimal_signed(b), |b| jeaiii::from_i64(1844674407370955161, b),
            |b| 1844674407370955161u64.write_integer_signed(10, b),
            |b| 1844674407370955161u64.write_mantissa_signed(&STANDARD, b),
            |b| 1844674407370955161u64.write_exponent_signed(&STANDARD, b);
        b"-9223372036854775808" => |b| i64::MIN.to_lexical(b).len(), |b| Decimal(i64::MIN).to_text(b).len();
        b"-FFFF" => |b| (-65535i32).to_lexical_with_options(b, &hexadecimal, &options).len(),
            |b| (-65535i32).write_lexical_with_options(b, &hexadecimal, &options);
        b"FFFF" => |b| 65535u32.radix(16, b), |b| 65535u32.compact(16, b), |b| 65535u32.write_integer(16, b),
            |b| algorithm(65535u32, 16, table(16), b), |b| 65535u32.write_integer_signed(16, b);
        b"-9_2_2_3_3_7_2_0_3_6_8_5_4_7_7_5_8_0_8" => |b| i64::MIN.to_lexical_with_options(b, &ones, &options).len();
        b"+1,+2_0,+2_5_5" => |b| join(&[1u8, 20, 255], b',', b, &ones, &options).len();
        b"-" => |b| write_sign(-1i8, b, &STANDARD);
        b"+" => |b| write_sign(5u8, b, &signed);
        &[7, b'-', b'5'] => |b| Decimal(-5).write_at(1, b);
        b"-1 000000000000000000000000000007" => |b| (Decimal(-1i32), " ", Padded(7u8, 30)).to_text(b).len();
        b"1, -2, 3" => |b| Joined(&[1i64, -2, 3], ", ").to_text(b).len();
        b"05hello" => |b| 2 + write_with_length("hello", 10, 2, 0, b);
        &[7, b'a', b'b'] => |b| { write_field("ab", 1, 2, b); 3 };
    }
}

#[test]
fn short_buffers_of_each_function() {
    check_in_time("a short buffer", 10, check_each_function);
}

#[test]
fn short_buffers_in_each_radix() {
    check_in_time("a short buffer", 10, || {
        for (length, radix) in (0..40).flat_map(|length| (2..=36).map(move |radix| (length, radix))) {
            with_buffer(length, |buffer| u64::MAX.write_integer(radix, buffer));
            with_buffer(length, |buffer| u32::MAX.radix(radix, buffer));
            with_buffer(length, |buffer| u16::MAX.compact(radix, buffer));
        }
    });
}
