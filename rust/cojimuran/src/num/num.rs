// Made by `strip` from crates/lexical_num/src/num.rt. Edit that file, not this one.

//! The traits of the integer types, for generic code.

/// An integer type whose numbers can be written.
///
/// ```
/// use cojimuran::LexicalInteger;
///
/// fn is_below_zero<T: LexicalInteger>(number: T) -> bool {
///     number.is_negative()
/// }
/// assert!(is_below_zero(-5i8) && !is_below_zero(5u8));
/// ```
pub trait LexicalInteger: Copy + crate::sealed::Sealed {
    /// The number of bits of the type. For `usize` and `isize` it is 64 on every target.
    const BITS: usize;

    /// The largest number of decimal digits of a number of the type. For `usize` and `isize` it is that of 64 bits on
    /// every target.
    const DECIMAL_WIDTH: usize;

    /// Whether the type has numbers below 0.
    const IS_SIGNED: bool;

    /// Returns whether the number is below 0.
    #[must_use]
    fn is_negative(self) -> bool;

    /// Returns 1 if the number is below 0, and otherwise 0.
    #[must_use]
    #[inline]
    fn sign_bit(self) -> usize {
        usize::from(self.is_negative())
    }
}

impl LexicalInteger for u8 {
    const BITS: usize = u8::BITS as usize;

    const DECIMAL_WIDTH: usize = 3;

    const IS_SIGNED: bool = false;

    #[inline]
    fn is_negative(self) -> bool {
        false
    }
}

impl LexicalInteger for u16 {
    const BITS: usize = u16::BITS as usize;

    const DECIMAL_WIDTH: usize = 5;

    const IS_SIGNED: bool = false;

    #[inline]
    fn is_negative(self) -> bool {
        false
    }
}

impl LexicalInteger for u32 {
    const BITS: usize = u32::BITS as usize;

    const DECIMAL_WIDTH: usize = 10;

    const IS_SIGNED: bool = false;

    #[inline]
    fn is_negative(self) -> bool {
        false
    }
}

impl LexicalInteger for u64 {
    const BITS: usize = u64::BITS as usize;

    const DECIMAL_WIDTH: usize = 20;

    const IS_SIGNED: bool = false;

    #[inline]
    fn is_negative(self) -> bool {
        false
    }
}

impl LexicalInteger for usize {
    // With pointers of 32 bits its numbers are among those of `u64`, and so are its constants.
    const BITS: usize = u64::BITS as usize;

    const DECIMAL_WIDTH: usize = 20;

    const IS_SIGNED: bool = false;

    #[inline]
    fn is_negative(self) -> bool {
        false
    }
}

impl LexicalInteger for i8 {
    const BITS: usize = i8::BITS as usize;

    const DECIMAL_WIDTH: usize = 3;

    const IS_SIGNED: bool = true;

    #[inline]
    fn is_negative(self) -> bool {
        // Neither 0 nor a larger number is negative.
        self < 0
    }
}

impl LexicalInteger for i16 {
    const BITS: usize = i16::BITS as usize;

    const DECIMAL_WIDTH: usize = 5;

    const IS_SIGNED: bool = true;

    #[inline]
    fn is_negative(self) -> bool {
        self < 0
    }
}

impl LexicalInteger for i32 {
    const BITS: usize = i32::BITS as usize;

    const DECIMAL_WIDTH: usize = 10;

    const IS_SIGNED: bool = true;

    #[inline]
    fn is_negative(self) -> bool {
        self < 0
    }
}

impl LexicalInteger for i64 {
    const BITS: usize = i64::BITS as usize;

    const DECIMAL_WIDTH: usize = 19;

    const IS_SIGNED: bool = true;

    #[inline]
    fn is_negative(self) -> bool {
        self < 0
    }
}

impl LexicalInteger for isize {
    // With pointers of 32 bits its numbers are among those of `i64`, and so are its constants.
    const BITS: usize = i64::BITS as usize;

    const DECIMAL_WIDTH: usize = 19;

    const IS_SIGNED: bool = true;

    #[inline]
    fn is_negative(self) -> bool {
        self < 0
    }
}

/// An unsigned integer type, with the arithmetic that is needed to write digits. The functions that write
/// digits are generic over it.
///
/// ```
/// use cojimuran::UnsignedInteger;
///
/// fn last_digit<T: UnsignedInteger>(number: T) -> T {
///     number.div_rem(T::from_u32(10)).1
/// }
/// assert_eq!(last_digit(1234u16), 4);
/// ```
#[diagnostic::on_unimplemented(
    message = "`{Self}` is not an unsigned integer type that this crate writes",
    note = "a literal needs a type, such as `255u8`; a signed number in a radix is written by `Formatted`, one with \
    leading zeros by `ZeroPadded`, and one of 128 bits by `Displayed`"
)]
pub trait UnsignedInteger: LexicalInteger {
    /// Converts a number that fits the type.
    ///
    /// # Panics
    ///
    /// If the type does not have the number.
    #[must_use]
    fn from_u32(value: u32) -> Self;

    /// Converts a number below 2^32.
    ///
    /// # Panics
    ///
    /// If the number is 2^32 or above.
    #[must_use]
    #[inline]
    fn as_u32(self) -> u32 {
        let number = self.as_u64();
        assert!(number < 4_294_967_296, "the number is 2^32 or above");
        number as u32
    }

    /// Returns the number as a `u64`, which can hold every number of the type.
    #[must_use]
    fn as_u64(self) -> u64;

    /// Returns the number as a `usize`, which can hold every number of the type if pointers have 64 bits.
    /// If they have 32, the call panics for 2^32 and above.
    #[must_use]
    fn as_usize(self) -> usize;

    /// Returns the quotient and the remainder of the division by `by`, which is not 0.
    ///
    /// # Panics
    ///
    /// If `by` is 0.
    #[must_use]
    fn div_rem(self, by: Self) -> (Self, Self);

    /// Returns whether the number is `other` or larger.
    #[must_use]
    #[inline]
    fn is_at_least(self, other: Self) -> bool {
        self.as_u64() >= other.as_u64()
    }

    /// Returns the number of zero bits above the highest set bit, and `BITS` for 0.
    #[must_use]
    fn leading_zeros(self) -> u32;
}

impl UnsignedInteger for u8 {
    #[inline]
    fn from_u32(value: u32) -> u8 {
        assert!(value < 256, "the type does not have the number");
        value as u8
    }

    #[inline]
    fn as_u64(self) -> u64 {
        self as u64
    }

    #[inline]
    fn as_usize(self) -> usize {
        self as usize
    }

    #[inline]
    fn div_rem(self, by: u8) -> (u8, u8) {
        (self / by, self % by)
    }

    #[inline]
    fn leading_zeros(self) -> u32 {
        u8::leading_zeros(self)
    }
}

impl UnsignedInteger for u16 {
    #[inline]
    fn from_u32(value: u32) -> u16 {
        assert!(value < 65_536, "the type does not have the number");
        value as u16
    }

    #[inline]
    fn as_u64(self) -> u64 {
        self as u64
    }

    #[inline]
    fn as_usize(self) -> usize {
        self as usize
    }

    #[inline]
    fn div_rem(self, by: u16) -> (u16, u16) {
        (self / by, self % by)
    }

    #[inline]
    fn leading_zeros(self) -> u32 {
        u16::leading_zeros(self)
    }
}

impl UnsignedInteger for u32 {
    #[inline]
    fn from_u32(value: u32) -> u32 {
        value
    }

    #[inline]
    fn as_u64(self) -> u64 {
        self as u64
    }

    #[inline]
    fn as_usize(self) -> usize {
        self as usize
    }

    #[inline]
    fn div_rem(self, by: u32) -> (u32, u32) {
        (self / by, self % by)
    }

    #[inline]
    fn leading_zeros(self) -> u32 {
        u32::leading_zeros(self)
    }
}

impl UnsignedInteger for u64 {
    #[inline]
    fn from_u32(value: u32) -> u64 {
        value as u64
    }

    #[inline]
    fn as_u64(self) -> u64 {
        self
    }

    #[inline]
    fn as_usize(self) -> usize {
        // With pointers of 32 bits a cast would cut off a larger number.
        let number = usize::try_from(self);
        assert!(number.is_ok(), "the number is above usize::MAX");
        number.unwrap_or(usize::MAX)
    }

    #[inline]
    fn div_rem(self, by: u64) -> (u64, u64) {
        (self / by, self % by)
    }

    #[inline]
    fn leading_zeros(self) -> u32 {
        u64::leading_zeros(self)
    }
}

impl UnsignedInteger for usize {
    #[inline]
    fn from_u32(value: u32) -> usize {
        value as usize
    }

    #[inline]
    fn as_u64(self) -> u64 {
        self as u64
    }

    #[inline]
    fn as_usize(self) -> usize {
        self
    }

    #[inline]
    fn div_rem(self, by: usize) -> (usize, usize) {
        (self / by, self % by)
    }

    #[inline]
    fn leading_zeros(self) -> u32 {
        u64::leading_zeros(self as u64)
    }
}
