//! What is written: the rows of the table, each with the loops of this package and of others.

use crate::loops::Loop;
use cojimuran::{Buffer, NumberFormat, NumberFormatBuilder, Options, ToLexical, ToLexicalWithOptions};
use cojimuran::{Decimal, Digits, Displayed, Formatted, Hex, Joined, Lower, Part, PushPart, Show, Shown};
use lexical_write_integer as lexical;
use std::fmt::Write as _;
use std::hint::black_box;
use std::io::Write as _;

#[allow(dead_code, reason = "it is a program")]
#[path = "../../../cojimuran/examples/number_of_128_bits.rs"]
mod example;

// The names of the rows that are also used apart from the table.
pub const U64_AS_BYTES: &str = "a `u64` as bytes";
pub const U64_IN_RADIX_36: &str = "a `u64` in radix 36, by a constant format";
const U64_AS_STR: &str = "a `u64` as a `&str`";
const I32_AS_STR: &str = "an `i32` as a `&str`";

const ITOA: &str = "`itoa`";
const LEXICAL: &str = "`lexical-write-integer`";
const WRITE: &str = "`write!`";

/// What is written, the loop of this package, and the loops of others with their names.
pub struct Row {
    pub name: &'static str,
    pub here: Loop,
    pub others: Vec<(&'static str, Loop)>,
}

impl Row {
    /// Returns the loop of this package, and then those of others.
    pub fn loops(&self) -> Vec<Loop> {
        std::iter::once(self.here).chain(self.others.iter().map(|(_, each)| *each)).collect()
    }
}

/// Returns all rows, in the order of the table.
pub fn rows() -> Vec<Row> {
    rows_of_numbers().into_iter().chain(rows_of_lines()).collect()
}

fn row(name: &'static str, here: Loop, others: &[(&'static str, Loop)]) -> Row {
    Row { name, here, others: others.to_vec() }
}

const THOUSANDS: NumberFormat = NumberFormatBuilder::new().digit_grouping(3, b',').build_strict();

/// Returns the loops of this package and of `lexical-write-integer` in a radix.
macro_rules! loops_in_radix {
    ($radix:literal) => {{
        const FORMAT: u128 = lexical::NumberFormatBuilder::from_radix($radix);
        (
            loop_with_buffer!(u64, |n, b| n
                .to_lexical_with_options(&mut b, const { &NumberFormatBuilder::from_radix($radix) }, &Options::new())
                .len()),
            loop_with_buffer!(u64, |n, b| {
                let options = lexical::Options::new();
                lexical::ToLexicalWithOptions::to_lexical_with_options::<FORMAT>(n, &mut b, &options).len()
            }),
        )
    }};
}

/// Returns the row of numbers of a type in decimal, which are written as a `&str`.
macro_rules! row_of_str {
    ($name:expr, $number:ty, |$value:ident| $made:expr) => {
        Row {
            name: $name,
            here: loop_of_texts!($number, |$value| Buffer::new().format($made)),
            others: vec![(ITOA, loop_of_texts!($number, |$value| itoa::Buffer::new().format($made)))],
        }
    };
}

/// Returns the row of numbers of a type in decimal, which are written as bytes.
macro_rules! row_of_bytes {
    ($name:expr, $number:ty) => {
        Row {
            name: $name,
            here: loop_with_buffer!($number, |n, b| n.to_lexical(&mut b).len()),
            others: vec![
                (LEXICAL, loop_with_buffer!($number, |n, b| lexical::ToLexical::to_lexical(n, &mut b).len())),
                (ITOA, loop_of_texts!($number, |n| itoa::Buffer::new().format(n))),
                (WRITE, loop_by_write!($number, |n| "{n}")),
            ],
        }
    };
}

fn rows_of_numbers() -> Vec<Row> {
    let (here_8, lexical_8) = loops_in_radix!(8);
    let (here_16, lexical_16) = loops_in_radix!(16);
    let (here_36, lexical_36) = loops_in_radix!(36);
    let to_str_36 = loop_with_buffer!(u64, |n, b| Digits(36, n).to_str(&mut b).len());
    let lower_16 = loop_of_texts!(u64, |n| Lower(Hex(n)).to_str(&mut [0; 16]));
    let lower_36 = loop_of_texts!(u64, |n| Lower(Digits(36, n)).to_str(&mut [0; 13]));
    let groups = loop_with_buffer!(u64, |n, b| Formatted(n, &THOUSANDS).to_str(&mut b).len());
    let groups_by_num_format = loop_with_buffer!(u64, |n, b| {
        let mut text = num_format::Buffer::new();
        text.write_formatted(&n, &num_format::Locale::en) + usize::from(black_box(text.as_bytes())[0] & b[0])
    });
    let example = loop_of_texts!(u64, |n| example::format_u128(with_128_bits(n), &mut [0; 40]));
    let displayed = loop_of_texts!(u64, |n| Displayed(&with_128_bits(n)).to_str(&mut [0; 40]));
    let itoa_128 = loop_of_texts!(u64, |n| itoa::Buffer::new().format(with_128_bits(n)));
    let write_128 = loop_by_write!(u64, |n| "{}", with_128_bits(n));
    let radix_fmt_36 = loop_by_write!(u64, |n| "{:#}", radix_fmt::radix_36(n));
    let rows = [
        row_of_str!(U64_AS_STR, u64, |n| n),
        row_of_str!("a `u64` of 3 digits as a `&str`", u64, |n| 100 + (n & 511)),
        row_of_str!("a `u64` of 20 digits as a `&str`", u64, |n| n | 3 << 62),
        row_of_str!("an `i64` that is not negative, as a `&str`", i64, |n| n & i64::MAX),
        row_of_str!(I32_AS_STR, i32, |n| n),
        row_of_bytes!(U64_AS_BYTES, u64),
        row_of_bytes!("a `u32` as bytes", u32),
        row_of_bytes!("a `u8` as bytes", u8),
        row_of_bytes!("an `i64` as bytes", i64),
        row_of_bytes!("an `i32` as bytes", i32),
        row_of_bytes!("an `i8` as bytes", i8),
        row("a `u64` in groups of three", groups, &[("`num-format`", groups_by_num_format)]),
        row(
            "a `u64` in radix 8, by a constant format",
            here_8,
            &[(LEXICAL, lexical_8), (WRITE, loop_by_write!(u64, |n| "{n:o}"))],
        ),
        row(
            "a `u64` in radix 16, by a constant format",
            here_16,
            &[(LEXICAL, lexical_16), (WRITE, loop_by_write!(u64, |n| "{n:X}"))],
        ),
        row("the same by `Hex`", loop_with_buffer!(u64, |n, b| Hex(n).write_to(&mut b)), &[]),
        row("the same in lowercase, by `Lower(Hex)`", lower_16, &[(WRITE, loop_by_write!(u64, |n| "{n:x}"))]),
        row(U64_IN_RADIX_36, here_36, &[(LEXICAL, lexical_36), ("`radix_fmt`", radix_fmt_36)]),
        row("the same by `Digits`", to_str_36, &[]),
        row("the same in lowercase, by `Lower(Digits)`", lower_36, &[]),
        row("a `u128` of 65 to 128 bits, by functions of your own", example, &[(ITOA, itoa_128), (WRITE, write_128)]),
        row("the same by `Displayed`", displayed, &[]),
    ];
    rows.into_iter().map(with_format_into).collect()
}

/// Adds the method `format_into` of std, which is not stable yet, to the row of a `&str` of any length.
#[cfg(feature = "format_into")]
fn with_format_into(mut row: Row) -> Row {
    let found = match row.name {
        U64_AS_STR => loop_of_texts!(u64, |n| n.format_into(&mut core::fmt::NumBuffer::new())),
        I32_AS_STR => loop_of_texts!(i32, |n| n.format_into(&mut core::fmt::NumBuffer::new())),
        _ => return row,
    };
    row.others.push(("`format_into`", found));
    row
}

#[cfg(not(feature = "format_into"))]
fn with_format_into(row: Row) -> Row {
    row
}

fn rows_of_lines() -> Vec<Row> {
    let shown = loop_by_write!(u64, |n| "{}", Decimal(n));
    let str_line = loop_with_buffer!(u64, |n, b| line(n).to_str(&mut b).len());
    let write_line = loop_by_write!(u64, |n| "id={n} flags=0x{:X}", n as u16);
    let shown_line = loop_by_write!(u64, |n| "{}", Shown(line(n)));
    let vec = loop_to_vec!(u64, |n, bytes| bytes.extend_from_slice(n.to_lexical(&mut [0; 20])));
    let vec_by_others = [
        (
            LEXICAL,
            loop_to_vec!(u64, |n, bytes| bytes.extend_from_slice(lexical::ToLexical::to_lexical(n, &mut [0; 20]))),
        ),
        (ITOA, loop_to_vec!(u64, |n, bytes| bytes.extend_from_slice(itoa::Buffer::new().format(n).as_bytes()))),
        (WRITE, loop_to_vec!(u64, |n, bytes| write!(bytes, "{n}").unwrap())),
    ];
    let joined = loop_to_string!(8, |numbers, text| text.push_str((Joined(numbers, ","), ",").to_str(&mut [0; 168])));
    let joined_by_others = [
        (ITOA, loop_to_string!(8, |numbers, text| join_by_itoa(numbers, &mut text))),
        (WRITE, loop_to_string!(8, |numbers, text| join_by_std(numbers, &mut text))),
    ];
    let csv_by_others = [
        (ITOA, loop_to_string!(4, |numbers, text| join_by_itoa(numbers, &mut text))),
        (WRITE, loop_to_string!(4, |n, text| writeln!(text, "{},{},{},{}", n[0], n[1], n[2], n[3]).unwrap())),
    ];
    let str_csv = loop_to_string!(4, |numbers, text| text.push_str(csv(numbers).to_str(&mut [0; 84])));
    let pushed_csv = loop_to_string!(4, |numbers, text| text.push_part(csv(numbers)));
    let pieces_csv = loop_to_string!(4, |numbers, text| csv(numbers).write_pieces(&mut text).unwrap());
    let buffer_csv = loop_to_string!(4, |numbers, text| join_by_buffer(numbers, &mut text));
    vec![
        row("`{}` of a `u64`, by `Decimal`", shown, &[(WRITE, loop_by_write!(u64, |n| "{n}"))]),
        row("a line `id=N flags=0xM`, M of 16 bits, by `to_str` of a tuple", str_line, &[(WRITE, write_line)]),
        row("`{}` of that line, by `Shown`", shown_line, &[]),
        row("a `u64` to the end of a `Vec`", vec, &vec_by_others),
        row("each of 8 `u64` with commas, to the end of a `String`", joined, &joined_by_others),
        row("each of 4 `u64` in a row of CSV, to a `String`, by `to_str` and `push_str`", str_csv, &csv_by_others),
        row("the same by `push_part`", pushed_csv, &[]),
        row("the same by `write_pieces`", pieces_csv, &[]),
        row("the same by `Buffer::format` and `push_str` in a loop", buffer_csv, &[]),
    ]
}

/// Returns a line of a log.
fn line(number: u64) -> impl Show {
    ("id=", number, " flags=0x", Hex(number as u16))
}

/// Returns a number of 65 to 128 bits.
fn with_128_bits(number: u64) -> u128 {
    u128::from(number) << 64 | u128::from(number)
}

/// Returns a line of CSV.
fn csv(numbers: &[u64; 4]) -> impl Show {
    let [first, second, third, fourth] = *numbers;
    (first, ",", second, ",", third, ",", fourth, "\n")
}

/// Appends numbers, each followed by a comma, with a `Buffer`.
fn join_by_buffer(numbers: &[u64], text: &mut String) {
    for number in numbers {
        text.push_str(Buffer::new().format(*number));
        text.push(',');
    }
}

/// Appends numbers, each followed by a comma, with `itoa`.
fn join_by_itoa(numbers: &[u64], text: &mut String) {
    for number in numbers {
        text.push_str(itoa::Buffer::new().format(*number));
        text.push(',');
    }
}

/// Appends numbers, each followed by a comma, with the standard library.
fn join_by_std(numbers: &[u64], text: &mut String) {
    for number in numbers {
        write!(text, "{number},").unwrap();
    }
}
