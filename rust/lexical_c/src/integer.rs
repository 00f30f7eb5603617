// Made by `strip` from crates/lexical_c/src/integer.rt. Edit that file, not this one.

//! The integer types whose numbers are written.

use cojimuran::ToLexicalWithOptions;

/// An integer type of 64 bits. Two copies are made of code for these types, in place of nine.
pub trait WideInteger: ToLexicalWithOptions {}

impl WideInteger for i64 {}

impl WideInteger for u64 {}

/// An integer type that C passes, of at most 64 bits. A `size_t` is passed as a `uint64_t`.
pub trait CInteger: ToLexicalWithOptions {
    /// A type of 64 bits that has its numbers: `i64` if it has them.
    type Wide: WideInteger + From<Self>;

    /// Returns the same number.
    #[inline]
    fn widen(self) -> Self::Wide {
        Self::Wide::from(self)
    }
}

impl CInteger for u8 {
    type Wide = i64;
}

impl CInteger for u16 {
    type Wide = i64;
}

impl CInteger for u32 {
    type Wide = i64;
}

impl CInteger for u64 {
    type Wide = u64;
}

impl CInteger for i8 {
    type Wide = i64;
}

impl CInteger for i16 {
    type Wide = i64;
}

impl CInteger for i32 {
    type Wide = i64;
}

impl CInteger for i64 {
    type Wide = i64;
}
