//! How long a loop takes, and how many instructions.

use crate::loops::Loop;
use crate::rows::rows;
use std::hint::black_box;
use std::process::Command;
use std::time::Instant;

/// How many numbers are written.
const COUNT: usize = 10_000;

/// How many passes are timed, of which the best counts.
const PASSES: usize = 2_000;

/// Numbers of this many digits in a radix.
#[derive(Clone, Copy)]
pub struct Length {
    pub radix: u64,
    pub digits: u32,
}

fn random(state: &mut u64) -> u64 {
    *state ^= *state << 13;
    *state ^= *state >> 7;
    *state ^= *state << 17;
    *state
}

/// Returns numbers of one length, or of 1 to 64 bits, each length as often. The lengths are in no order, since a
/// processor learns to predict lengths that follow a pattern.
pub fn numbers(length: Option<Length>) -> Vec<u64> {
    let state = &mut 0x9e37_79b9_7f4a_7c15_u64;
    let number = |_| match length {
        None => (random(state) | 1 << 63) >> (random(state) % 64),
        Some(Length { radix, digits }) => {
            let least = radix.pow(digits - 1);
            least + random(state) % (least.saturating_mul(radix - 1).min(u64::MAX - least))
        }
    };
    (0..COUNT).map(number).collect()
}

/// Returns how many nanoseconds a number takes: the best of all passes, in which the loops take turns.
pub fn times(loops: &[Loop], numbers: &[u64]) -> Vec<f64> {
    let mut best = vec![f64::MAX; loops.len()];
    for _ in 0..PASSES {
        for (each, best) in loops.iter().zip(&mut best) {
            let start = Instant::now();
            black_box(each(numbers));
            *best = best.min(start.elapsed().as_secs_f64() * 1e9 / COUNT as f64);
        }
    }
    best
}

/// What another process of this program runs, so that valgrind counts its instructions: the first of some numbers are
/// written by a loop of a row.
#[derive(Clone, Copy)]
pub struct Run {
    pub row: usize,
    pub column: usize,
    pub length: Option<Length>,
    pub count: usize,
}

impl Run {
    /// Returns the words of the command line, after `--run`. The radix and the digits are 0 for numbers of any length.
    fn words(self) -> [String; 5] {
        let length = self.length.unwrap_or(Length { radix: 0, digits: 0 });
        [self.row, self.column, length.radix as usize, length.digits as usize, self.count].map(|word| word.to_string())
    }

    /// Returns the run of these words.
    pub fn of(words: [&str; 5]) -> Run {
        let [row, column, radix, digits, count] = words.map(|word| word.parse::<usize>().expect("a number"));
        let length = (radix > 0).then_some(Length { radix: radix as u64, digits: digits as u32 });
        Run { row, column, length, count }
    }

    /// Writes the numbers, and prints how many bytes that were.
    pub fn perform(self) {
        println!("{}", rows()[self.row].loops()[self.column](&numbers(self.length)[..self.count]));
    }

    /// Returns how many instructions another process takes for this.
    fn instructions(self) -> u64 {
        let mut command = Command::new("valgrind");
        command.args(["--tool=callgrind", "--callgrind-out-file=/dev/null"]).arg(std::env::current_exe().unwrap());
        let output = command.arg("--run").args(self.words()).output().expect("valgrind");
        let text = String::from_utf8_lossy(&output.stderr);
        let collected = text.lines().find_map(|line| line.split_once("Collected : "));
        collected.unwrap_or_else(|| panic!("valgrind: {text}")).1.trim().parse().unwrap()
    }
}

/// Returns how many instructions a number takes in a loop of a row.
pub fn instructions(row: usize, column: usize, length: Option<Length>) -> f64 {
    let with_count = |count| Run { row, column, length, count }.instructions();
    (with_count(COUNT) - with_count(0)) as f64 / COUNT as f64
}
