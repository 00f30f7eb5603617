// Made by `strip` from crates/lexical_write_integer/src/digits/decimal/decimal_pairs.rt. Edit that file, not this one.

//! Writing pairs of decimal digits from the table of radix 10.

use super::kernels::next2;
use crate::write_integer::digits::pairs::RadixTable;

// The digits of each number below 100, with a zero after a single one.
const LEFT_ALIGNED_PAIRS: [u8; 200] = *b"\
    00102030405060708090\
    10111213141516171819\
    20212223242526272829\
    30313233343536373839\
    40414243444546474849\
    50515253545556575859\
    60616263646566676869\
    70717273747576777879\
    80818283848586878889\
    90919293949596979899";

// Returns the digits of a number below 100, and in the place of the second digit a zero if there is only one.
#[inline(always)]
#[track_caller]
fn first_pair(pair: u32) -> (u8, u8) {
    let index = 2 * pair as usize;
    (LEFT_ALIGNED_PAIRS[index], LEFT_ALIGNED_PAIRS[index + 1])
}

/// Writes the one or two digits of a number below 100 to the start of the buffer, and returns how many
/// there are.
#[inline(always)]
#[track_caller]
pub(crate) fn write_below_100(pair: u32, buffer: &mut [u8]) -> usize {
    // A single digit is written over the zero after it, to avoid a branch.
    let is_pair = pair >= 10;
    let (first, second) = first_pair(pair);
    buffer[is_pair as usize] = second;
    buffer[0] = first;
    1 + is_pair as usize
}

// Writes the one or two digits of a number below 100 to the start of the buffer, and returns how many there are. After
// a single digit it writes a zero, which the next digits replace.
#[inline(always)]
#[track_caller]
fn write_first_pair(pair: u32, buffer: &mut [u8]) -> usize {
    let (first, second) = first_pair(pair);
    buffer[1] = second;
    buffer[0] = first;
    1 + (pair >= 10) as usize
}

/// Writes the digits of the number that a fraction carries to the start of the buffer, and returns how
/// many there are. They are the whole part of the fraction, which has one or two digits, and
/// `pair_count` pairs after it. Each of these pairs takes one iteration, in which `next2` computes a product.
#[inline(always)]
#[track_caller]
pub(crate) fn write_pairs(fraction: u64, pair_count: usize, buffer: &mut [u8]) -> usize {
    let mut count = write_first_pair((fraction >> 32) as u32, buffer);
    let table = RadixTable::<10>::new();
    let mut rest = fraction;
    for _ in 0..pair_count {
        let pair = next2(&mut rest);
        table.write(pair, buffer, count);
        count += 2;
    }
    count
}

// Writes the two digits of a number below 100 at index `at`.
#[inline(always)]
#[track_caller]
fn write_pair_at(pair: u32, buffer: &mut [u8], at: usize) {
    RadixTable::<10>::new().write(pair, buffer, at);
}

// Writes a number below 10000 as four digits at index `at`, with leading zeros. The last pair is first.
#[inline(always)]
#[track_caller]
fn write_four_at(number: u32, buffer: &mut [u8], at: usize) {
    write_pair_at(number % 100, buffer, at + 2);
    write_pair_at(number / 100, buffer, at);
}

/// Writes the last ten digits of a number at index `at`. The last pair is first.
#[inline(always)]
#[track_caller]
pub(crate) fn write_last_ten(number: u64, buffer: &mut [u8], at: usize) {
    let low = number % 10_000_000_000;
    let front = (low / 10_000) as u32;
    write_four_at((low % 10_000) as u32, buffer, at + 6);
    write_four_at(front % 10_000, buffer, at + 2);
    write_pair_at(front / 10_000, buffer, at);
}

/// Writes the digits of a number with leading zeros over the whole buffer, two at a time and the last ones first. The
/// number is below 10 to the power of the length of the buffer.
#[inline(always)]
#[track_caller]
pub(crate) fn write_decimal_block(number: u64, buffer: &mut [u8]) {
    let table = RadixTable::<10>::new();
    let mut left = number;
    let mut at = buffer.len();
    while at > 1 {
        at -= 2;
        table.write((left % 100) as u32, buffer, at);
        left /= 100;
    }
    if at == 1 {
        buffer[0] = b'0' + left as u8;
    }
}
