//! Loops over numbers, each of which a call writes. Each loop is a function of its own, so no two share code.

/// Writes each number to an array, and returns how many bytes that were.
pub type Loop = fn(&[u64]) -> usize;

/// Returns a loop over numbers of a type, each of which a call writes to a buffer. It is a function of its own.
macro_rules! loop_with_buffer {
    ($number:ty, |$value:ident, $buffer:ident| $call:expr) => {{
        #[inline(never)]
        #[allow(unused_mut, reason = "some calls take no buffer")]
        fn each(numbers: &[u64]) -> usize {
            let (mut total, mut $buffer) = (0, [0u8; 128]);
            for number in numbers {
                let $value = black_box(*number as $number);
                total += $call;
                black_box(&$buffer);
            }
            total
        }
        each as Loop
    }};
}

/// Returns a loop over numbers of a type, of each of which an expression is the text. It counts the bytes of the texts.
macro_rules! loop_of_texts {
    ($number:ty, |$value:ident| $text:expr) => {
        loop_with_buffer!($number, |$value, b| black_box($text).len() + usize::from(b[0]))
    };
}

/// Returns a loop by `write!` of the standard library.
macro_rules! loop_by_write {
    ($number:ty, |$value:ident| $($text:tt)*) => {
        loop_with_buffer!($number, |$value, buffer| {
            let mut rest = &mut buffer[..];
            write!(rest, $($text)*).unwrap();
            128 - rest.len()
        })
    };
}

/// Returns a loop that appends numbers to a `Vec`, which is empty again after some bytes.
macro_rules! loop_to_vec {
    ($number:ty, |$value:ident, $bytes:ident| $call:expr) => {{
        #[inline(never)]
        fn each(numbers: &[u64]) -> usize {
            let (mut total, mut $bytes) = (0, Vec::with_capacity(4096));
            for number in numbers {
                let $value = black_box(*number as $number);
                if $bytes.len() > 4000 {
                    total += $bytes.len();
                    $bytes.clear();
                }
                $call;
                black_box(&$bytes);
            }
            total + $bytes.len()
        }
        each as Loop
    }};
}

/// Returns a loop over groups of numbers, each of which is written to a `String`, which is empty again after some
/// bytes.
macro_rules! loop_to_string {
    ($count:literal, |$numbers:ident, $text:ident| $call:expr) => {{
        #[inline(never)]
        fn each(numbers: &[u64]) -> usize {
            let (mut total, mut $text) = (0, String::with_capacity(4096));
            for group in numbers.chunks_exact($count) {
                let $numbers: &[u64; $count] = black_box(group).try_into().unwrap();
                if $text.len() > 3800 {
                    total += $text.len();
                    $text.clear();
                }
                $call;
                black_box(&$text);
            }
            total + $text.len()
        }
        each as Loop
    }};
}
