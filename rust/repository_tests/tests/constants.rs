//! Formats and lengths of buffers that are constants.

use cojimuran::format::is_mark;
use cojimuran::radix::digit_to_char;
use cojimuran::{NumberFormat, NumberFormatBuilder, Options, OptionsBuilder, Result, ToLexicalWithOptions};

const OPTIONS: Options = OptionsBuilder::new().build_strict();
const RADIX_36: NumberFormat = NumberFormatBuilder::from_radix(36);
const BINARY: NumberFormat = NumberFormatBuilder::binary();
const HEXADECIMAL: NumberFormat = NumberFormatBuilder::hexadecimal();
const THOUSANDS: NumberFormat =
    NumberFormatBuilder::new().required_mantissa_sign(true).digit_grouping(3, b',').build_strict();
const REFUSED: Result<NumberFormat> = NumberFormatBuilder::new().mantissa_radix(16).exponent_radix(37).build();
const SIZE: usize = OPTIONS.buffer_size_const::<u64>(&RADIX_36);

#[test]
fn texts_in_constant_formats() {
    let mut buffer = [7; SIZE];
    assert_eq!(u64::MAX.to_lexical_with_options(&mut buffer, &RADIX_36, &OPTIONS), b"3W5E11264SGSF");
    assert_eq!(5u8.to_lexical_with_options(&mut buffer, &BINARY, &OPTIONS), b"101");
    assert_eq!(255u8.to_lexical_with_options(&mut buffer, &HEXADECIMAL, &OPTIONS), b"FF");
    assert_eq!(1234567i32.to_lexical_with_options(&mut buffer, &THOUSANDS, &OPTIONS), b"+1,234,567");
}

#[test]
fn constants() {
    const { assert!(SIZE == 128 && BINARY.mantissa_radix() == 2 && THOUSANDS.grouped_len(7) == 9) };
    const { assert!(THOUSANDS.is_valid() && THOUSANDS.digit_grouping().is_some() && is_mark(32)) };
    const { assert!(digit_to_char(35) == b'Z' && OPTIONS.rebuild().is_valid()) };
    assert_eq!(REFUSED.unwrap_err().to_string(), "invalid exponent radix 37");
}
