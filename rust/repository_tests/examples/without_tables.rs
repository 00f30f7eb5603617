//! Writes a number in a radix that is known only at run time, by what must not have the tables of digit pairs of all
//! radices. `tests/packages` looks for them in the program.

use cojimuran::{Digits, Formatted, Left, Lower, NumberFormatBuilder, PaddedDigits, Show, Shown};

fn main() {
    let (radix, number) = (std::env::args().count() as u8 + 35, std::env::args().count() as u64 + 70);
    let format = NumberFormatBuilder::new().radix(radix).build().unwrap();
    let (digits, mut text) = (Digits(radix.into(), number), String::new());
    println!("{digits} {} {}", PaddedDigits(radix.into(), number, 3), Formatted(-(number as i64), &format));
    (Lower(digits), "|", Left(&digits, 4, b'.')).write_pieces(&mut text).unwrap();
    println!("{}", Shown((text.as_str(), " ", digits)));
}
