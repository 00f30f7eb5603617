//! The table of parts in the README of the package: each part there writes the text beside it.

use cojimuran::*;

const README: &str = include_str!("../../cojimuran/README.md");
const FORMAT: NumberFormat = NumberFormatBuilder::new().digit_grouping(3, b',').build_strict();

/// Checks what each part writes, and returns the code of each and its text.
macro_rules! check_parts {
    ($($part:expr => $text:literal;)+) => {{
        $(assert_eq!($part.to_str(&mut [0; 64]), $text);)+
        [$((stringify!($part), $text)),+]
    }};
}

#[test]
fn each_part_of_the_table_writes_its_text() {
    let n = 7u64;
    let parts = check_parts! {
        Digits(36, 1000u64) => "RS";
        InRadix::<36, _>(1000u64) => "RS";
        Hex(255u8) => "FF";
        FullHex(255u16) => "00FF";
        Binary(5u8) => "101";
        Lower(Hex(255u8)) => "ff";
        Formatted(1234567, &FORMAT) => "1,234,567";
        Fixed(-1995, 2) => "-19.95";
        GroupedFixed(123450, 2, &FORMAT) => "1,234.50";
        TrimmedFixed(1950, 2) => "19.5";
        Padded(7u8, 2) => "07";
        PaddedDigits(16, 255u8, 4) => "00FF";
        ZeroPadded(-42, 6) => "-00042";
        Plus(5) => "+5";
        Scientific(1234, -59) => "1.234e-56";
        Decimal(n) => "7";
        Left("ab", 4, b'.') => "ab..";
        Right("ab", 4, b'.') => "..ab";
        Center("ab", 4, b'.') => ".ab.";
        Joined(&[1, 2, 3], ", ") => "1, 2, 3";
        OrElse(None::<u8>, "n/a") => "n/a";
        Bytes(b"ab") => "ab";
        Byte(b'a') => "a";
        HexBytes(&[222, 173], ":") => "DE:AD";
        Sign(5, true) => "+";
        Displayed(&0.5) => "0.5";
    };
    let (_, table) = README.split_once("| part | writes |").unwrap();
    let (table, _) = table.split_once("\n\n").unwrap();
    let mut count = 0;
    for row in table.lines().skip(2) {
        let (codes, texts) = row.split_once(" | ").unwrap();
        for code in codes.split('`').skip(1).step_by(2) {
            let (_, text) =
                parts.iter().find(|(part, _)| *part == code).unwrap_or_else(|| panic!("{code} is not here"));
            // A part of a generic type has no text of its own there.
            assert!(texts.contains(&format!("`{text}`")) || code == "Decimal(n)", "{row}: {text}");
            count += 1;
        }
    }
    assert_eq!(count, parts.len());
}
