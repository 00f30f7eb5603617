//! Compares what the packages `cojimuran` and `lexwrite` export with what their users may rely on, as it stands here:
//! the names that the imports list, and the traits that each type implements. Without one of them this file does not
//! compile. Only `traits_of_formats` runs something: it compares the defaults.

#![allow(unused_imports, reason = "what is not there is an error")]

use cojimuran::buffer::{copy_to_front, front_mut};
use cojimuran::decimal::{Decimal as _, DecimalCount, fallback_digit_count, fast_digit_count, fast_log10};
use cojimuran::digit_count::{DigitCount, fast_log2};
use cojimuran::jeaiii::{
    fixed_2, fixed_4, fixed_6, fixed_8_nine, fixed_8_ten, fixed_8_wide, from_i64, from_u8, from_u16, from_u32,
    from_u64, next2,
};
use cojimuran::parts::{Digits as _, Hex as _, Shown as _};
use cojimuran::table::{DIGIT_TO_BASE2_SQUARED, DIGIT_TO_BASE36_SQUARED, get_table};
use cojimuran::{
    BUFFER_SIZE, Buffer, Error, FormattedSize, LexicalInteger, NumberFormat, NumberFormatBuilder, Options,
    OptionsBuilder, Part, Result, ToLexical, ToLexicalWithOptions, UnsignedInteger, WriteOptions, algorithm::algorithm,
    compact::Compact, format::STANDARD, format::is_group_size, format::is_mark, format::is_radix, group_digits,
    options, padded::write_padded, radix::Radix, radix::digit_to_char, sign_len, write::WriteInteger, write_field,
    write_sign, write_with_length,
};
use lexwrite::lines::{
    Answerer, BlockSink, BlockSource, BlockWriter, ByteSink, ByteSource, Reading, SliceSink, SliceSource, Writing,
    answer_lines, answer_reader, answer_slice, answer_stream, join, put_all, run, status, write_joined,
};
use std::fmt::Debug;
use std::hash::Hash;
use std::panic::{RefUnwindSafe, UnwindSafe};

// A call of such a function compiles only if the type has these traits. It does nothing.

fn is_value<T: Copy + Debug + Send + Sync + Unpin + UnwindSafe + RefUnwindSafe + 'static>() {}
fn is_number<T: ToLexicalWithOptions<Options = Options> + FormattedSize + Part>() {}
fn is_unsigned<T: UnsignedInteger + Radix + Compact + DigitCount + WriteInteger + DecimalCount>() {}

/// Calls such a function for each of the types.
macro_rules! each {
    ($function:ident: $($type:ty),+) => { $($function::<$type>();)+ };
}

#[test]
fn traits_of_numbers() {
    each!(is_number: u8, u16, u32, u64, usize, i8, i16, i32, i64, isize);
    each!(is_unsigned: u8, u16, u32, u64, usize);
}

#[test]
fn traits_of_formats() {
    fn is_ordered<T: Copy + Debug + Ord + Default + Send + Sync>() {}
    fn is_hashed<T: Eq + Hash>() {}
    fn is_error<E: std::error::Error + Copy + Eq + Hash + Send + Sync + 'static>() {}
    fn is_options<T: WriteOptions>() {}
    each!(is_value: NumberFormat, NumberFormatBuilder);
    each!(is_hashed: NumberFormat, NumberFormatBuilder);
    each!(is_ordered: Options, OptionsBuilder);
    is_error::<Error>();
    is_options::<Options>();
    assert_eq!((NumberFormatBuilder::default().build().unwrap(), NumberFormat::default()), (STANDARD, STANDARD));
    let _: Result<NumberFormat> = Err(Error::InvalidGroupMark(b'0'));
    let _: Result<u8, std::num::ParseIntError> = "7".parse();
}

#[test]
fn traits_of_devices() {
    fn is_source<S: BlockSource + Debug + Send>() {}
    fn is_sink<K: BlockSink + Debug + Send>() {}
    fn are_of_bytes<S: ByteSource + Debug, K: ByteSink + Debug>() {}
    fn has_debug<T: Debug>() {}
    has_debug::<Answerer>();
    is_source::<Reading<&[u8]>>();
    is_sink::<Writing<Vec<u8>>>();
    are_of_bytes::<SliceSource, SliceSink>();
    are_of_bytes::<SliceSource, BlockWriter<Writing<Vec<u8>>, 16>>();
}
