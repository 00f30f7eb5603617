// Made by `strip` from crates/lexical_write_integer/src/digits/decimal/jeaiii.rt. Edit that file, not this one.

//! The decimal writers. A number of 3 to 10 digits is multiplied by the reciprocal of a power of 100,
//! which makes it a fixed-point fraction. Each multiplication of the fraction by 100 then yields two
//! digits, so no digit needs a division. The algorithm is James Anhalt's jeaiii
//! (<https://github.com/jeaiii/itoa>); Lemire, Kaser and Kurz, "Faster Remainder by Direct Computation"
//! (2019), describe how digits are obtained from the fraction of a product with a reciprocal.

use super::decimal_pairs::{write_below_100, write_last_ten, write_pairs};
pub use super::kernels::{
    fixed_2, fixed_4, fixed_6, fixed_8_nine, fixed_8_ten, fixed_8_wide, next2,
};
use crate::num::num::UnsignedInteger;

// Writes the digits of a number of up to 32 bits.
#[inline(always)]
#[track_caller]
fn write_32(n: u32, buffer: &mut [u8]) -> usize {
    if n < 100 {
        write_below_100(n, buffer)
    } else if n < 10_000 {
        write_pairs(fixed_2(n), 1, buffer)
    } else if n < 1_000_000 {
        write_pairs(fixed_4(n), 2, buffer)
    } else if n < 100_000_000 {
        write_pairs(fixed_6(n), 3, buffer)
    } else {
        // Both kernels share one call, so the compiler makes one copy of its body.
        let fraction = if n < 1_000_000_000 {
            fixed_8_nine(n)
        } else {
            fixed_8_ten(n)
        };
        write_pairs(fraction, 4, buffer)
    }
}

// Writes the digits of a number of more than ten digits: the last ten by division, after the digits before them.
#[inline(always)]
#[track_caller]
fn write_more_than_ten(n: u64, buffer: &mut [u8]) -> usize {
    let front = write_32((n / 10_000_000_000) as u32, buffer);
    write_last_ten(n, buffer, front);
    front + 10
}

// Writes the digits of a number of up to 64 bits.
#[inline(always)]
#[track_caller]
fn write_64(n: u64, buffer: &mut [u8]) -> usize {
    // Short numbers are tested first, as in `write_32`: that mispredicts the fewest branches.
    if n < 10_000 {
        if n < 100 {
            write_below_100(n as u32, buffer)
        } else {
            write_pairs(fixed_2(n as u32), 1, buffer)
        }
    } else if n < 1_000_000_000 {
        write_32(n as u32, buffer)
    } else if n < 10_000_000_000 {
        write_pairs(fixed_8_wide(n), 4, buffer)
    } else {
        write_more_than_ten(n, buffer)
    }
}

// Writes the digits of a number of up to 32 bits. `strip` has rustc inline `write_32` into each caller. When rustc
// optimizes for size, it can keep this copy as one function.
#[inline]
fn shared_write_32(n: u32, buffer: &mut [u8]) -> usize {
    write_32(n, buffer)
}

// Writes the digits of a number of up to 64 bits, as `shared_write_32` does those of one of up to 32 bits.
#[inline]
fn shared_write_64(n: u64, buffer: &mut [u8]) -> usize {
    write_64(n, buffer)
}

/// Writes the digits of a number to the start of the buffer, and returns how many there are. The buffer has
/// room for 3 bytes.
///
/// # Panics
///
/// If the buffer is [too short](crate::conditions).
#[inline(always)]
#[track_caller]
pub fn from_u8(n: u8, buffer: &mut [u8]) -> usize {
    // Just the room for the longest number, so one test of a length takes the place of one at each write.
    shared_write_32(u32::from(n), &mut buffer[..3])
}

/// Writes the digits of a number to the start of the buffer, and returns how many there are. The buffer has
/// room for 5 bytes.
///
/// # Panics
///
/// If the buffer is [too short](crate::conditions).
#[inline(always)]
#[track_caller]
pub fn from_u16(n: u16, buffer: &mut [u8]) -> usize {
    shared_write_32(u32::from(n), &mut buffer[..5])
}

/// Writes the digits of a number to the start of the buffer, and returns how many there are. The buffer has
/// room for 10 bytes.
///
/// # Panics
///
/// If the buffer is [too short](crate::conditions).
#[inline(always)]
#[track_caller]
pub fn from_u32(n: u32, buffer: &mut [u8]) -> usize {
    shared_write_32(n, &mut buffer[..10])
}

/// Writes the digits of a number to the start of the buffer, and returns how many there are. The buffer has
/// room for 20 bytes.
///
/// # Panics
///
/// If the buffer is [too short](crate::conditions).
#[inline(always)]
#[track_caller]
pub fn from_u64(n: u64, buffer: &mut [u8]) -> usize {
    shared_write_64(n, &mut buffer[..20])
}

/// Writes the digits of a number to the start of the buffer, and returns how many there are. The number is
/// below 10^19, as is the magnitude of each `i64`, and the buffer has room for 19 bytes.
///
/// # Panics
///
/// If the number is 10^19 or above, or if the buffer is [too short](crate::conditions).
#[inline(always)]
#[track_caller]
pub fn from_i64(n: u64, buffer: &mut [u8]) -> usize {
    assert!(
        n < 10_000_000_000_000_000_000,
        "the number is 10^19 or above"
    );
    shared_write_64(n, &mut buffer[..19])
}
