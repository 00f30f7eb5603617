//! Writes numbers of 1 to 64 bits in one way: `instructions CELL COUNT`. `tests/packages` counts what a number takes,
//! and has a limit for each cell.

use cojimuran::{
    Buffer, Digits, Formatted, Hex, NumberFormat, NumberFormatBuilder, Padded, Part, PushPart, Right, Show,
};
use repository_tests::random::Random;
use std::hint::black_box;

const THOUSANDS: NumberFormat = NumberFormatBuilder::new().digit_grouping(3, b',').build_strict();

fn line(number: u64) -> impl Show {
    ("id=", number, " flags=0x", Hex(number as u16))
}

/// Passes each of the numbers on, with an array and an empty `String`, of which it reads the text.
fn each(numbers: &[u64], write: impl Fn(u64, &mut [u8; 128], &mut String)) {
    let (mut buffer, mut text) = ([0; 128], String::with_capacity(128));
    for number in numbers {
        text.clear();
        write(*number, black_box(&mut buffer), black_box(&mut text));
    }
}

fn main() {
    let words: Vec<String> = std::env::args().collect();
    let mut random = Random(1);
    let numbers: Vec<u64> = (0..words[2].parse().unwrap()).map(|_: u32| random.number()).collect();
    match &*words[1] {
        "decimal" => each(&numbers, |number, _, _| _ = black_box(Buffer::new().format(number))),
        "groups" => each(&numbers, |number, buffer, _| _ = black_box(Formatted(number, &THOUSANDS).to_str(buffer))),
        "radix_16" => each(&numbers, |number, buffer, _| _ = black_box(Hex(number).to_str(buffer))),
        "radix_36" => each(&numbers, |number, buffer, _| _ = black_box(Digits(36, number).to_str(buffer))),
        "padded" => each(&numbers, |number, buffer, _| _ = black_box(Padded(number % 1_000_000, 6).to_str(buffer))),
        "column" => each(&numbers, |number, buffer, _| _ = black_box(Right(number, 24, b' ').to_str(buffer))),
        "line" => each(&numbers, |number, buffer, _| _ = black_box(line(number).to_str(buffer))),
        "line_by_push_part" => each(&numbers, |number, _, text| text.push_part(line(number))),
        "line_by_write_pieces" => each(&numbers, |number, _, text| line(number).write_pieces(text).unwrap()),
        "nothing" => each(&numbers, |_, _, _| ()),
        cell => panic!("no cell {cell}"),
    }
}
