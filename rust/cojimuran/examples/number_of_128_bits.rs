//! Writes numbers of 128 bits in decimal, from parts of 64 bits.

use cojimuran::{Digits, Padded, Part};

/// Returns the decimal text of the number, which has at most 39 bytes.
pub fn format_u128(number: u128, buffer: &mut [u8; 40]) -> &str {
    format_magnitude("", number, buffer)
}

/// Returns the decimal text of the number, which has at most 40 bytes.
pub fn format_i128(number: i128, buffer: &mut [u8; 40]) -> &str {
    let sign = if number < 0 { "-" } else { "" };
    format_magnitude(sign, number.unsigned_abs(), buffer)
}

fn format_magnitude<'a>(sign: &str, number: u128, buffer: &'a mut [u8; 40]) -> &'a str {
    const TEN_19: u128 = 10u128.pow(19);
    // Each is below 10^19, so it fits a `u64`.
    let low_digits = |number: u128| u64::try_from(number % TEN_19).unwrap();
    let low = low_digits(number);
    let middle = low_digits(number / TEN_19);
    let high = low_digits(number / TEN_19 / TEN_19);
    // The room of a `Digits` is its number of digits, and that of a `u64` is 20.
    if high > 0 {
        let high = Digits(10, high);
        (sign, high, Padded(middle, 19), Padded(low, 19)).to_str(buffer)
    } else if middle > 0 {
        (sign, Digits(10, middle), Padded(low, 19)).to_str(buffer)
    } else {
        (sign, low).to_str(buffer)
    }
}

fn main() {
    let mut buffer = [0; 40];
    println!("{}", format_u128(u128::MAX, &mut buffer));
    println!("{}", format_i128(i128::MIN, &mut buffer));
}
