//! The recipes of the README, each beside the text that it writes.

use cojimuran::{
    Buffer, Digits, Displayed, Fixed, Formatted, GroupedFixed, Hex, HexBytes, InRadix, Joined,
    Left, Lower, NumberFormat, NumberFormatBuilder, Padded, Part, PushPart, Right, Show, Shown,
    WritePart, ZeroPadded,
};
use std::fmt;

const THOUSANDS: NumberFormat = NumberFormatBuilder::new()
    .digit_grouping(3, b',')
    .build_strict();

/// A type with a `Display` of its own.
struct Point(i32, i32);

impl fmt::Display for Point {
    fn fmt(&self, f: &mut fmt::Formatter<'_>) -> fmt::Result {
        fmt::Display::fmt(&Shown(("(", self.0, ", ", self.1, ")")), f)
    }
}

fn main() {
    // A row of CSV at the end of a `String`.
    let name = String::from("shoe");
    let sizes = Joined(&[38u8, 40], " ");
    let row = (7u32, ",", name.as_str(), ",", sizes, "\n");
    let mut csv = String::from("id,name,sizes\n");
    csv.push_part(row);
    assert_eq!(csv, "id,name,sizes\n7,shoe,38 40\n");

    // A row with a float, or with any other value that has `Display`.
    let mut rated = String::new();
    rated.push_part((7u32, ",", Displayed(&0.5), "\n"));
    assert_eq!(rated, "7,0.5\n");

    // A row in a file, or in any other `io::Write`. Here a `Vec` stands for it.
    let mut file = Vec::new();
    file.write_part(row).unwrap();
    assert_eq!(file, b"7,shoe,38 40\n");

    // A row in any `fmt::Write`, with an error in place of a panic.
    let mut other = String::new();
    let result = row.write_pieces(&mut other);
    assert_eq!((result, other.as_str()), (Ok(()), "7,shoe,38 40\n"));

    // One number, in decimal and in radix 36, as in a short link.
    let mut buffer = [0; 64];
    assert_eq!(Buffer::new().format(-1234i32), "-1234");
    assert_eq!(Digits(36, 1000u64).to_str(&mut buffer), "RS");
    assert_eq!(Lower(InRadix::<36, _>(1000u64)).to_str(&mut buffer), "rs");

    // Groups of digits, and amounts.
    let people = Formatted(1234567u32, &THOUSANDS);
    assert_eq!(people.to_str(&mut buffer), "1,234,567");
    assert_eq!(Fixed(-1995i64, 2).to_str(&mut buffer), "-19.95");
    let total = GroupedFixed(123456789u32, 2, &THOUSANDS);
    assert_eq!(total.to_str(&mut buffer), "1,234,567.89");

    // Fixed widths, columns, and bytes in hexadecimal.
    let time = (Padded(7u8, 2), ":", Padded(5u8, 2));
    assert_eq!(time.to_str(&mut buffer), "07:05");
    assert_eq!(ZeroPadded(-42, 6).to_str(&mut buffer), "-00042");
    let columns = (Left("shoe", 8, b' '), Right(42u32, 5, b'.'));
    assert_eq!(columns.to_str(&mut buffer), "shoe    ...42");
    let bytes = HexBytes(&[0xDE, 0xAD, 1], ":");
    assert_eq!(bytes.to_str(&mut buffer), "DE:AD:01");

    // A line of a log, with a field that may be absent: as a `&str`, as bytes, and in a format string.
    let user = Some(1000u64).map(|user| (" user=", user));
    let line = (time, user, " flags=0x", Hex(255u16));
    let text = "07:05 user=1000 flags=0xFF";
    assert_eq!(line.to_str(&mut buffer), text);
    assert_eq!(line.to_text(&mut buffer), text.as_bytes());
    assert_eq!(format!("{}", Shown(line)), text);
    assert_eq!(format!("{:>6}", Hex(255u16)), "    FF");
    assert_eq!(format!("{:>9}", Point(3, -4)), "  (3, -4)");
}
