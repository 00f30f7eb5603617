//! Measures the package beside the formatting of the standard library, and prints a table:
//! `cargo run --release -p speed`. With `-- --passes N` it measures each row N times, and otherwise 200 times. With
//! further words, such as `-- decimal`, it measures only the texts whose name begins with one of them.

mod cases;

use cases::{
    AnyRadix, Case, ChangingRadix, Column, Decimal, FourNumbers, Hexadecimal, InRadix36, Line, Lowercase, Lowercase36,
    Names, Radix36, SixDigits, TARGETS, Target, Zeros, is_same, write_all, write_all_by_std,
};
use std::hint::black_box;
use std::io::IsTerminal;
use std::process::ExitCode;
use std::time::Instant;

/// How many numbers a pass writes.
const COUNT: usize = 10_000;

/// Makes a number from numbers of 64 random bits.
type Distribution = fn(&mut dyn FnMut() -> u64) -> u64;

/// The numbers of a pass: small, of any length in bits, and of any value.
const DISTRIBUTIONS: [(Distribution, &str); 3] = [
    (|random| random() % 1000, "below 1000"),
    (|random| (random() | 1 << 63) >> (random() % 64), "of 1 to 64 bits"),
    (|random| random(), "of 64 bits"),
];

fn numbers(distribution: Distribution) -> Vec<u64> {
    let mut state = 0x9e37_79b9_7f4a_7c15_u64;
    let mut random = || {
        state ^= state << 13;
        state ^= state >> 7;
        state ^= state << 17;
        state
    };
    (0..COUNT).map(|_| distribution(&mut random)).collect()
}

/// Writes the numbers to a target, and returns how many bytes that were.
type Pass = fn(Target, &[u64]) -> usize;

/// A row of the table: what is written, whether a text is that of the standard library, and the passes of both.
struct Row {
    name: &'static str,
    is_same: fn(u64) -> bool,
    ours: Pass,
    std: Option<Pass>,
}

fn row<C: Case>() -> Row {
    let has_std = C::write_by_std(0, &mut Vec::new()).is_some();
    Row { name: C::NAME, is_same: is_same::<C>, ours: write_all::<C>, std: has_std.then_some(write_all_by_std::<C>) }
}

fn rows() -> [Row; 14] {
    [
        row::<Decimal>(),
        row::<Hexadecimal>(),
        row::<Lowercase>(),
        row::<Radix36>(),
        row::<InRadix36>(),
        row::<Lowercase36>(),
        row::<AnyRadix>(),
        row::<ChangingRadix>(),
        row::<SixDigits>(),
        row::<Zeros>(),
        row::<Column>(),
        row::<Line>(),
        row::<FourNumbers>(),
        row::<Names>(),
    ]
}

/// The best of some times, and how much the median is above it, in nanoseconds of a number.
fn text_of(mut times: Vec<f64>) -> (f64, String) {
    times.sort_by(f64::total_cmp);
    (times[0], format!("{:.1} (+{:.1})", times[0], times[times.len() / 2] - times[0]))
}

/// Returns the times of interleaved passes.
fn measure(passes: &[Pass], target: Target, numbers: &[u64], count: usize) -> Vec<Vec<f64>> {
    let mut times = vec![Vec::new(); passes.len()];
    for _ in 0..count {
        for (pass, times) in passes.iter().zip(&mut times) {
            let start = Instant::now();
            black_box(pass(target, numbers));
            times.push(start.elapsed().as_secs_f64() * 1e9 / COUNT as f64);
        }
    }
    times
}

/// Shows a line on a terminal in place of the last one.
fn show_progress(line: &str) {
    if std::io::stderr().is_terminal() {
        eprint!("\r{line:45}\r");
    }
}

/// The columns of the times, as README.md says.
const COLUMNS: &str = "| text | numbers | to | here, ns | std, ns | ratio |";

/// Prints the table of times, and then the largest ratio of each text to each target.
fn print_times(rows: &[Row], count: usize) {
    println!("{COLUMNS}\n|---|---|---|---|---|---|");
    let mut largest = vec![[0.0_f64; TARGETS.len()]; rows.len()];
    for (row, largest) in rows.iter().zip(&mut largest) {
        for (distribution, name) in DISTRIBUTIONS {
            let numbers = numbers(distribution);
            for ((target, to), largest) in TARGETS.into_iter().zip(&mut *largest) {
                show_progress(&format!("measuring {} to {to}", row.name));
                let passes: Vec<Pass> = std::iter::once(row.ours).chain(row.std).collect();
                let lengths: Vec<usize> = passes.iter().map(|pass| pass(target, &numbers)).collect();
                assert!(lengths.iter().all(|length| *length == lengths[0]), "texts of other lengths: {lengths:?}");
                assert!(numbers.iter().all(|number| (row.is_same)(*number)), "another text than that of std");
                let mut found = measure(&passes, target, &numbers, count).into_iter().map(text_of);
                let ours = found.next().unwrap_or_default();
                let (std, ratio) = found.next().map_or(("-".to_owned(), "-".to_owned()), |(best, text)| {
                    *largest = largest.max(ours.0 / best);
                    (text, format!("{:.2}", ours.0 / best))
                });
                show_progress("");
                println!("| {} | {name} | {to} | {} | {std} | {ratio} |", row.name, ours.1);
            }
        }
    }
    let targets: String = TARGETS.iter().map(|(_, to)| format!(" {to} |")).collect();
    println!("\n| the largest ratio |{targets}\n|---|{}", "---|".repeat(TARGETS.len()));
    for (row, largest) in rows.iter().zip(largest).filter(|(row, _)| row.std.is_some()) {
        let ratios: String = largest.iter().map(|ratio| format!(" {ratio:.1} |")).collect();
        println!("| {} |{ratios}", row.name);
    }
}

/// Returns the rows and how many passes these words ask for, if each word that is no option begins the name of a row.
fn asked(words: &[String]) -> Option<(Vec<Row>, usize)> {
    let (count, names) = match words {
        [option, count, names @ ..] if option == "--passes" => (count.parse().ok().filter(|count| *count > 0)?, names),
        names => (200, names),
    };
    let is_named = |row: &Row| names.is_empty() || names.iter().any(|name| row.name.starts_with(name));
    let are_there = names.iter().all(|name| rows().iter().any(|row| row.name.starts_with(name)));
    are_there.then(|| (rows().into_iter().filter(is_named).collect(), count))
}

fn main() -> ExitCode {
    let words: Vec<String> = std::env::args().skip(1).collect();
    let Some((rows, count)) = asked(&words) else {
        let names = rows().map(|row| row.name).join(", ");
        eprintln!("use: cargo run --release -p speed [-- [--passes N] [TEXT..]]\nThe texts are: {names}");
        return ExitCode::FAILURE;
    };
    print_times(&rows, count);
    ExitCode::SUCCESS
}

#[cfg(test)]
mod tests {
    use super::*;

    #[test]
    fn numbers_of_each_distribution() {
        let [small, of_any_length, of_any_value] = DISTRIBUTIONS.map(|(distribution, _)| numbers(distribution));
        let lengths = |numbers: &[u64]| numbers.iter().map(|n| u64::BITS - n.leading_zeros()).collect::<Vec<_>>();
        assert!((990..1000).contains(small.iter().max().unwrap()));
        assert!((1..=64).all(|bits| lengths(&of_any_length).contains(&bits)) && !of_any_length.contains(&0));
        assert!(lengths(&of_any_value).iter().min() > Some(&48));
        assert_eq!([small, of_any_length, of_any_value].map(|numbers| numbers.len()), [COUNT; 3]);
    }

    #[test]
    fn the_best_and_what_the_median_adds() {
        assert_eq!(text_of(vec![4.0, 1.5, 3.5]), (1.5, "1.5 (+2.0)".to_owned()));
    }

    #[test]
    fn texts_are_those_of_std() {
        assert!(rows().iter().all(|row| [0, 9, 10, 65_535, u64::MAX].into_iter().all(row.is_same)));
        for (ours, std) in rows().iter().filter_map(|row| Some((row.ours, row.std?))) {
            assert!(TARGETS.iter().all(|(target, _)| ours(*target, &[12]) == std(*target, &[12])));
        }
    }
}
