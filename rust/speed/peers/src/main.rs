//! Prints the nanoseconds that a number takes beside other crates, and the instructions, which valgrind counts:
//! `cargo run --release`. With `-- --times` it prints only nanoseconds, and needs no valgrind. With `-- --by-digits` it
//! prints the instructions by the number of digits. With the feature `format_into` it also has that method of std,
//! which is not stable yet.

#![cfg_attr(feature = "format_into", feature(int_format_into))]

#[macro_use]
mod loops;
mod measure;
mod rows;

use measure::{Length, Run, instructions, numbers, times};
use rows::{U64_AS_BYTES, U64_IN_RADIX_36, rows};
use std::process::ExitCode;

/// Prints the nanoseconds of each row, and the instructions in parentheses if they are wanted.
fn print_table(with_instructions: bool) {
    let numbers = numbers(None);
    println!("| what is written | cojimuran | others |\n|---|---|---|");
    for (index, row) in rows().iter().enumerate() {
        let lengths: Vec<usize> = row.loops().iter().map(|each| each(&numbers)).collect();
        assert!(
            lengths.iter().all(|length| *length == lengths[0]),
            "{}: texts of other lengths: {lengths:?}",
            row.name
        );
        let times = times(&row.loops(), &numbers).into_iter().enumerate();
        let mut cells = times.map(|(column, time)| match with_instructions {
            true => format!("{time:.1} ({:.0})", instructions(index, column, None)),
            false => format!("{time:.1}"),
        });
        let here = cells.next().expect("a loop of this package");
        let others: Vec<String> =
            row.others.iter().zip(cells).map(|((name, _), cell)| format!("{cell} with {name}")).collect();
        println!("| {} | {here} | {} |", row.name, if others.is_empty() { "-".to_owned() } else { others.join(", ") });
    }
}

/// Prints the instructions of the row with a name, for numbers of so many digits in a radix.
fn print_by_digits(name: &str, radix: u64, digits: &[u32]) {
    let rows = rows();
    let row = rows.iter().position(|row| row.name == name).expect("a row of this name");
    let columns = 0..rows[row].loops().len();
    let others: String = rows[row].others.iter().map(|(name, _)| format!(" {name} |")).collect();
    println!("| digits in radix {radix} | cojimuran |{others}\n|---|{}", "---|".repeat(columns.len()));
    for digits in digits.iter().copied() {
        let length = Some(Length { radix, digits });
        let counts = columns.clone().map(|column| format!(" {:.0} |", instructions(row, column, length)));
        println!("| {digits} |{}", counts.collect::<String>());
    }
}

fn main() -> ExitCode {
    let words: Vec<String> = std::env::args().skip(1).collect();
    match words.iter().map(String::as_str).collect::<Vec<_>>()[..] {
        [] => print_table(true),
        ["--times"] => print_table(false),
        ["--by-digits"] => {
            print_by_digits(U64_AS_BYTES, 10, &[1, 5, 10, 15, 20]);
            println!();
            print_by_digits(U64_IN_RADIX_36, 36, &[1, 5, 9, 13]);
        }
        ["--run", row, column, radix, digits, count] => Run::of([row, column, radix, digits, count]).perform(),
        _ => {
            eprintln!("use: cargo run --release [-- --times | --by-digits]");
            return ExitCode::FAILURE;
        }
    }
    ExitCode::SUCCESS
}
