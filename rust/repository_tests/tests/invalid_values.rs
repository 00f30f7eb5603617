//! Radices that are invalid, and numbers that are longer than their width. Each call panics, none hangs, and none
//! changes a byte outside of its buffer. `panics.rs` tests the messages.

use cojimuran::compact::Compact;
use cojimuran::digit_count::DigitCount;
use cojimuran::padded::write_padded;
use cojimuran::radix::Radix;
use cojimuran::write::WriteInteger;
use cojimuran::{Digits, Padded, PaddedDigits, Part, table};
use repository_tests::calls::{check_in_time, with_buffer};

/// Checks that each of these calls panics with a buffer of this length.
macro_rules! check_panics {
    ($length:expr; $($call:expr),+ $(,)?) => { $(
        assert_eq!(with_buffer($length, $call), None, "{}", stringify!($call));
    )+ };
}

#[test]
fn invalid_radices_of_numbers() {
    check_in_time("a radix", 10, || {
        for radix in [0, 1, 37, 128, 255, 256, 65536, 2147483647, u32::MAX] {
            check_panics! { 128;
                |_| u64::MAX.digit_count(radix),
                |_| u8::MAX.slow_digit_count(radix), |_| u64::MAX.slow_digit_count(radix),
                |_| table::get_table(radix).len(),
                |buffer| write_padded(u64::MAX, radix, buffer),
                |buffer| u64::MAX.write_integer(radix, buffer),
                |buffer| u64::MAX.write_integer_signed(radix, buffer),
                |buffer| u64::MAX.radix(radix, buffer),
                |buffer| u64::MAX.compact(radix, buffer),
                |buffer| Digits(radix, u64::MAX).to_text(buffer).len(),
                |buffer| PaddedDigits(radix, u64::MAX, 90).to_text(buffer).len(),
            }
        }
    });
}

#[test]
fn numbers_above_their_width() {
    check_in_time("a width", 10, || {
        for width in 0..20 {
            check_panics! { width; |buffer| write_padded(u64::MAX, 10, buffer) }
            // This number has 10 digits.
            let written = with_buffer(40, |buffer| Padded(u32::MAX, width).to_text(buffer).len());
            assert_eq!(written.map(|(count, _)| count), (width >= 10).then_some(width));
        }
        check_panics! { 19; |buffer| u64::MAX.write_integer_signed(10, buffer) }
        // Only the number 0 has no digits in no width.
        assert_eq!((write_padded(0u8, 16, &mut []), write_padded(0u8, 10, &mut [])), (0, 0));
    });
}
