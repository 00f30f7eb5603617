//! Parts in format strings, beside what the standard library writes there.

use cojimuran::{Show, Shown};
use std::fmt::{Display, Write};

/// Compares a part with a value of the standard library in each of these format strings, which may name variables.
#[macro_export]
macro_rules! check_formats {
    ($part:expr, $value:expr, $($format:literal),+) => { $(
        assert_eq!(format!($format, $part), format!($format, $value), "in {:?}", $format);
    )+ };
}

/// Checks that a part is shown as its text is, with the options of a string, in this width or precision.
pub fn check_shown<P: Show>(part: P, text: &str, n: usize) {
    let part = Shown(part);
    assert_eq!(part.to_string(), text);
    check_formats!(part, text, "{:n$}", "{:>n$}", "{:é^n$}", "{:𝄞>n$}", "{:<0n$}", "{:09}");
    check_formats!(part, text, "{:.n$}", "{:9.n$}", "{:+>300.n$}", "{:^#n$.40}");
}

/// Checks that a part is shown as its text is, in each width and precision up to some more than it has.
pub fn check_text<P: Show>(part: P, text: &str) {
    for n in 0..=text.chars().count() + 3 {
        check_shown(part, text, n);
    }
}

/// Returns whether a format string with this argument is an error, with and without a width.
pub fn is_refused(shown: impl Display) -> bool {
    write!(String::new(), "{shown}").is_err() && write!(String::new(), "{shown:9}").is_err()
}
