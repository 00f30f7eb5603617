//! A panic names the file and the line of the caller.

use cojimuran::*;
use std::panic::{AssertUnwindSafe, Location, catch_unwind, set_hook, take_hook};
use std::sync::Mutex;

/// The file and the line that the last panic named.
static PLACE: Mutex<(String, u32)> = Mutex::new((String::new(), 0));

/// Checks that a call with a buffer of three bytes panics, and that the panic names the line of this check, where the
/// call is.
#[track_caller]
fn check(call: fn(&mut [u8]) -> usize) {
    set_hook(Box::new(|panic| {
        let place = panic.location().unwrap();
        *PLACE.lock().unwrap() = (place.file().to_owned(), place.line());
    }));
    let result = catch_unwind(AssertUnwindSafe(|| call(&mut [0; 3])));
    drop(take_hook());
    assert!(result.is_err(), "the call returns");
    let here = Location::caller();
    assert_eq!(*PLACE.lock().unwrap(), (here.file().to_owned(), here.line()));
}

// One test, since a hook sees the panics of all threads.
#[test]
fn callers_are_named() {
    const THOUSANDS: NumberFormat = NumberFormatBuilder::new().digit_grouping(3, b',').build_strict();
    check(|buffer| 1234u64.to_lexical(buffer).len());
    check(|buffer| (-1234i32).to_lexical(buffer).len());
    check(|buffer| 1234u16.to_lexical_with_options(buffer, &THOUSANDS, &Options::new()).len());
    check(|buffer| ("id=", 7u8, " of ", 1234u32).to_str(buffer).len());
    check(|buffer| ("id=", 7u8, " of ", 1234u32).to_text(buffer).len());
    check(|buffer| (1u8, (2u8, "abc")).write_to(buffer));
    check(|buffer| Fixed(-1995i32, 2).to_str(buffer).len());
    check(|buffer| Hex(0x1234u32).to_str(buffer).len());
    check(|buffer| Joined(&[1u64, 20], ",").to_text(buffer).len());
    check(|buffer| "text".to_str(buffer).len());
    check(|buffer| (&7123u64).to_text(buffer).len());
    check(|buffer| Plus(7123u64).to_text(buffer).len());
    check(|buffer| ZeroPadded(7u8, 4).to_str(buffer).len());
    check(|buffer| Displayed(&7123u128).to_text(buffer).len());
    check(|buffer| (&String::from("text")).to_text(buffer).len());
    // Parts that are not valid.
    check(|buffer| Digits(37, 7u8).to_str(buffer).len());
    check(|buffer| Padded(123u8, 2).to_text(buffer).len());
    check(|buffer| Right(Digits(37, 7u8), 3, b' ').to_str(buffer).len());
    check(|buffer| TrimmedFixed(7u8, 20).to_str(buffer).len());
    check(|buffer| Byte(200).to_str(buffer).len());
    check(|buffer| Digits(37, 7u8).try_write_to(buffer).unwrap_or(0));
    check(|_| NumberFormatBuilder::new().radix(37).build_strict().mantissa_radix() as usize);
    check(|_| no_length(|| String::new().push_part(("id=", Digits(37, 7u8)))));
    check(|_| no_length(|| Vec::new().push_part(Fixed(7u8, 20))));
}

/// Calls a function that returns nothing.
fn no_length(call: fn()) -> usize {
    call();
    0
}
