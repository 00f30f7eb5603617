//! What is written, and where to. Each loop is a function of its own for each case and each call, so none is shared.

use cojimuran::{
    Digits, Hex, InRadix, Lower, NumberFormat, NumberFormatBuilder, Options, Padded, Part, PushPart, Right, Show,
    Shown, ToLexical, ToLexicalWithOptions, WritePart, ZeroPadded,
};
use std::fmt::Write as _;
use std::hint::black_box;
use std::io::Write;

/// A text with a number.
pub trait Case {
    const NAME: &str;

    /// Writes the text to a buffer, and returns its length.
    fn write(number: u64, buffer: &mut [u8]) -> usize;

    /// The part with that text.
    fn part(number: u64) -> impl Show;

    /// Writes the text with the standard library, if that has it.
    fn write_by_std(_number: u64, _output: impl Write) -> Option<()> {
        None
    }

    /// Appends the text to a `String` with the standard library.
    fn append_by_std(_number: u64, _text: &mut String) -> Option<()> {
        None
    }
}

/// Makes a case of its name, a call that writes the text, and the part. What `write!` takes for the same text
/// follows, if the standard library has it.
macro_rules! case {
    (
        $case:ident, $name:literal, |$number:ident, $buffer:ident| $call:expr, $part:expr
        $(; $($text:tt)+)?
    ) => {
        pub struct $case;

        impl Case for $case {
            const NAME: &str = $name;

            #[inline(always)]
            fn write($number: u64, $buffer: &mut [u8]) -> usize {
                $call
            }

            #[inline(always)]
            fn part($number: u64) -> impl Show {
                $part
            }
            $(
                #[inline(always)]
                fn write_by_std($number: u64, mut output: impl Write) -> Option<()> {
                    write!(output, $($text)+).ok()
                }

                #[inline(always)]
                fn append_by_std($number: u64, text: &mut String) -> Option<()> {
                    write!(text, $($text)+).ok()
                }
            )?
        }
    };
}

const RADIX_16: NumberFormat = NumberFormatBuilder::from_radix(16);
const RADIX_36: NumberFormat = NumberFormatBuilder::from_radix(36);

#[inline(always)]
fn to_lexical(number: u64, buffer: &mut [u8], format: &NumberFormat) -> usize {
    number.to_lexical_with_options(buffer, format, &Options::new()).len()
}

/// Returns a line of numbers.
#[inline(always)]
fn line(number: u64) -> impl Show {
    ("id=", number, " flags=0x", Hex(number as u16), "\n")
}

/// Returns a row of four numbers.
#[inline(always)]
fn row(number: u64) -> impl Show {
    (number, ",", number ^ 1, ",", number ^ 2, ",", number ^ 3, "\n")
}

/// Names of several lengths.
const NAMES: [&str; 4] = ["Ada", "Grace Hopper", "Emmy Noether", "Sofia"];

fn name(number: u64) -> &'static str {
    NAMES[number as usize % 4]
}

/// Returns a line of strings.
#[inline(always)]
fn names(number: u64) -> impl Show {
    ("first=", name(number), " second=", name(number / 4), "\n")
}

/// Returns a number in a radix that is known only at run time, which is 36.
#[inline(always)]
fn any_radix(number: u64) -> Digits<u64> {
    Digits(black_box(36), number)
}

/// Returns a number in one of seven radices that have about as many digits. The radix changes from call to call.
#[inline(always)]
fn changing_radix(number: u64) -> Digits<u64> {
    Digits(30 + (number % 7) as u32, number)
}

/// Returns a number of at most six digits.
fn short(number: u64) -> u64 {
    number % 1_000_000
}

case! { Decimal, "decimal", |n, b| n.to_lexical(b).len(), n; "{n}" }
case! { Hexadecimal, "radix 16", |n, b| to_lexical(n, b, &RADIX_16), Hex(n); "{n:X}" }
case! { Lowercase, "radix 16, lowercase", |n, b| Lower(Hex(n)).write_to(b), Lower(Hex(n)); "{n:x}" }
case! { Radix36, "radix 36, `Digits`", |n, b| to_lexical(n, b, &RADIX_36), Digits(36, n) }
case! { InRadix36, "radix 36, `InRadix`", |n, b| InRadix::<36, _>(n).write_to(b), InRadix::<36, _>(n) }
case! { AnyRadix, "radix 36 at run time", |n, b| any_radix(n).write_to(b), any_radix(n) }
case! { ChangingRadix, "radix 30 to 36 at run time", |n, b| changing_radix(n).write_to(b), changing_radix(n) }
case! { Lowercase36, "radix 36, lowercase", |n, b| Lower(Digits(36, n)).write_to(b), Lower(Digits(36, n)) }
case! {
    SixDigits, "six digits, `Padded`", |n, b| Padded(short(n), 6).write_to(b), Padded(short(n), 6);
    "{:06}", short(n)
}
case! {
    Zeros, "six digits, `ZeroPadded`", |n, b| ZeroPadded(short(n), 6).write_to(b), ZeroPadded(short(n), 6);
    "{:06}", short(n)
}
case! { Column, "a column", |n, b| Right(n, 24, b' ').write_to(b), Right(n, 24, b' '); "{n:>24}" }
case! { Line, "line of numbers", |n, b| line(n).write_to(b), line(n); "id={n} flags=0x{:X}\n", n as u16 }
case! { FourNumbers, "row of four numbers", |n, b| row(n).write_to(b), row(n); "{n},{},{},{}\n", n ^ 1, n ^ 2, n ^ 3 }
case! {
    Names, "line of strings", |n, b| names(n).write_to(b), names(n);
    "first={} second={}\n", name(n), name(n / 4)
}

/// Returns whether the package writes what the standard library writes, if that has such a text.
pub fn is_same<C: Case>(number: u64) -> bool {
    let (mut buffer, mut text) = ([0; SIZE], Vec::new());
    let count = C::write(number, &mut buffer);
    C::write_by_std(number, &mut text).is_none_or(|()| buffer[..count] == *text)
}

/// Where the texts go, and by which call. A `Vec` also stands for a file.
#[derive(Clone, Copy)]
pub enum Target {
    Array,
    Slice,
    Vector,
    File,
    Text,
    Pieces,
    Format,
}

/// Each target, and its name in the table.
pub const TARGETS: [(Target, &str); 7] = [
    (Target::Array, "an array"),
    (Target::Slice, "a slice"),
    (Target::Vector, "`push_part` to a `Vec`"),
    (Target::File, "`write_part` to it"),
    (Target::Text, "`push_part` to a `String`"),
    (Target::Pieces, "`write_pieces` to it"),
    (Target::Format, "`{}` to it"),
];

/// The length of the arrays and slices.
const SIZE: usize = 96;

/// Writes the text of each number to a target, and returns how many bytes that were.
#[allow(clippy::redundant_closure, reason = "a call of a function is not always inlined as one in a closure is")]
pub fn write_all<C: Case>(target: Target, numbers: &[u64]) -> usize {
    match target {
        Target::Array => to_array(numbers, |number, buffer| C::write(number, buffer)),
        Target::Slice => to_slice(numbers, black_box(&mut [0; SIZE]), |number, buffer| C::write(number, buffer)),
        Target::Vector => to_vector(numbers, |number, bytes| bytes.push_part(C::part(number))),
        Target::File => to_vector(numbers, |number, bytes| _ = bytes.write_part(C::part(number))),
        Target::Text => to_string(numbers, |number, text| text.push_part(C::part(number))),
        Target::Pieces => to_string(numbers, |number, text| _ = C::part(number).write_pieces(text)),
        Target::Format => to_string(numbers, |number, text| _ = write!(text, "{}", Shown(C::part(number)))),
    }
}

/// Does what `write_all` does, with the standard library.
pub fn write_all_by_std<C: Case>(target: Target, numbers: &[u64]) -> usize {
    let write = |number, mut rest: &mut [u8]| {
        C::write_by_std(number, &mut rest);
        SIZE - rest.len()
    };
    match target {
        Target::Array => to_array(numbers, write),
        Target::Slice => to_slice(numbers, black_box(&mut [0; SIZE]), write),
        Target::Vector | Target::File => to_vector(numbers, |number, bytes| _ = C::write_by_std(number, bytes)),
        Target::Text | Target::Pieces | Target::Format => {
            to_string(numbers, |number, text| _ = C::append_by_std(number, text))
        }
    }
}

// Each loop takes the call that writes a number, or appends it.

#[inline(never)]
fn to_array(numbers: &[u64], write: impl Fn(u64, &mut [u8]) -> usize) -> usize {
    let mut buffer = [0; SIZE];
    let write = |number: &u64| {
        let count = write(black_box(*number), &mut buffer);
        black_box(&buffer);
        count
    };
    numbers.iter().map(write).sum()
}

#[inline(never)]
fn to_slice(numbers: &[u64], buffer: &mut [u8], write: impl Fn(u64, &mut [u8]) -> usize) -> usize {
    let write = |number: &u64| {
        let count = write(black_box(*number), buffer);
        black_box(&buffer);
        count
    };
    numbers.iter().map(write).sum()
}

#[inline(never)]
fn to_vector(numbers: &[u64], append: impl Fn(u64, &mut Vec<u8>)) -> usize {
    let mut bytes = Vec::new();
    for number in numbers {
        append(black_box(*number), &mut bytes);
    }
    black_box(&bytes).len()
}

#[inline(never)]
fn to_string(numbers: &[u64], append: impl Fn(u64, &mut String)) -> usize {
    let mut text = String::new();
    for number in numbers {
        append(black_box(*number), &mut text);
    }
    black_box(&text).len()
}
