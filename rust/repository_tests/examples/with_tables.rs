//! Writes a number in a radix that is known only at run time by `to_str`, which has the tables of digit pairs of all
//! radices. So `tests/packages` finds them here, and not in `without_tables.rs`.

use cojimuran::{Digits, Part};

fn main() {
    let (radix, number) = (std::env::args().count() as u32 + 35, std::env::args().count() as u64 + 70);
    println!("{}", Digits(radix, number).to_str(&mut [0; 64]));
}
