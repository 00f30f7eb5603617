//! Each part, of values that a test chooses.

use cojimuran::{NumberFormat, NumberFormatBuilder};

/// What the parts of the table are made of.
#[derive(Clone, Copy)]
pub struct Values<'a> {
    pub bits: u64,
    /// For what is not to be large, such as a radix, a count or an exponent.
    pub small: u64,
    pub width: usize,
    pub fill: u8,
    pub bytes: &'a [u8],
    pub groups: &'a NumberFormat,
}

const THOUSANDS: NumberFormat = NumberFormatBuilder::new().digit_grouping(3, b',').build_strict();

/// With these values most parts have their longest texts.
pub const LONGEST: Values =
    Values { bits: u64::MAX, small: 1, width: 4, fill: b'.', bytes: &[1, 126], groups: &THOUSANDS };

/// Calls a macro with the name of the `Values`, and a row for each part: its longest room, the text that fills it, and
/// the part of these values. It has that text if the values are `LONGEST` with the fields after `where`.
#[macro_export]
macro_rules! each_part {
    ($check:ident) => {
        $check! { v;
            // Values that are parts themselves.
             3, "255"                   => v.bits as u8;
             5, "65535"                 => v.bits as u16;
            10, "4294967295"            => v.bits as u32;
            20, "18446744073709551615"  => v.bits;
             4, "-128"                  => v.bits as i8, where bits = 1 << 7;
             6, "-32768"                => v.bits as i16, where bits = 1 << 15;
            11, "-2147483648"           => v.bits as i32, where bits = 1 << 31;
            20, "-9223372036854775808"  => v.bits as i64, where bits = 1 << 63;
            11, "ÄÖ€𝄞"                  => "ÄÖ€𝄞";
             5, "false"                 => v.small % 2 == 1, where small = 0;
             4, "𝄞"                     => if v.small % 2 == 1 { 'a' } else { '𝄞' }, where small = 0;
            // Numbers.
             3, "255"                   => Decimal(v.bits as u8);
            20, "-9223372036854775808"  => Decimal(v.bits as i64), where bits = 1 << 63;
             6, "+65535"                => Plus(v.bits as u16);
             6, "-32768"                => Plus(v.bits as i16), where bits = 1 << 15;
             1, "+"                     => Sign(v.bits as i8, v.small % 2 == 1), where bits = 5, small = 1;
             1, "-"                     => Sign(v.bits as i64, v.small % 2 == 1), where bits = 1 << 63;
             8, "11111111"              => Digits(v.small as u32 % 40, v.bits as u8), where small = 2;
             1, "0"                     => Digits(v.width as u32, v.bits), where width = 36, bits = 0;
            13, "3W5E11264SGSF"         => InRadix::<36, _>(v.bits);
             8, "FFFFFFFF"              => Hex(v.bits as u32);
             4, "00FF"                  => FullHex(v.bits as u16), where bits = 255;
             8, "11111111"              => Binary(v.bits as u8);
             3, "007"                   => Padded(v.bits as u8, v.width / 16), where bits = 7, width = 48;
            20, "18446744073709551615"  => Padded(v.bits, v.width), where width = 20;
             4, "00FF"                  => PaddedDigits(v.small as u32 % 40, v.bits as u16, v.width),
                                           where small = 16, bits = 255;
            // Numbers with a point or in groups.
             5, "-1.28"                 => Fixed(v.bits as i8, v.width), where bits = 1 << 7, width = 2;
            21, "-9223372036854.775808" => Fixed(v.bits as i64, v.width), where bits = 1 << 63, width = 6;
            14, "-21,474,836.48"        => GroupedFixed(v.bits as i32, v.width / 2, v.groups), where bits = 1 << 31;
             5, "-1.28"                 => TrimmedFixed(v.bits as i8, v.width / 2), where bits = 1 << 7;
            17, "-1.28e-3"              => Scientific(v.bits as i8, v.small as i32),
                                           where bits = 1 << 7, small = u64::MAX - 4;
            14, "-2,147,483,648"        => Formatted(v.bits as i32, v.groups), where bits = 1 << 31;
            // Bytes, lists and columns.
             2, "\u{1}~"                => Bytes(v.bytes);
             1, "."                     => Byte(v.fill);
             5, "01:7E"                 => HexBytes(v.bytes, ":");
             8, "255, 1"                => Joined(&[v.bits as u8, 1], ", ");
             4, "ab.."                  => Left("ab", v.width, v.fill);
             4, "..ab"                  => Right("ab", v.width, v.fill);
             5, "abcde"                 => Center("abcde", v.width, v.fill);
             6, "-00005"                => ZeroPadded(v.bits as i8, v.width), where bits = 251, width = 6;
            // Parts that change another part or stand for it.
             2, "ff"                    => Lower(Hex(v.bits as u8));
             2, "ab"                    => Some("ab");
             3, "n/a"                   => OrElse(None::<u8>, "n/a");
             3, "255"                   => &Decimal(v.bits as u8);
        }
    };
}
