//! Texts to copy: an identifier, a row of CSV, a UUID, an IPv6 address, a line of a dump and a line of a log.

use cojimuran::{
    Digits, Fixed, Hex, HexBytes, Joined, Lower, Padded, PaddedDigits, Part, PushPart, ZeroPadded,
};

/// An identifier in radix 36 and in lowercase, as in a short link: `rs` for 1000.
fn identifier(id: u64) -> String {
    Lower(Digits(36, id)).to_str(&mut [0; 13]).to_owned()
}

/// A row of CSV: a name, an amount in cents and some sizes.
fn csv_row(name: &str, cents: i64, sizes: &[u16]) -> String {
    let mut row = String::new();
    row.push_part((name, ",", Fixed(cents, 2), ",", Joined(sizes, " "), "\n"));
    row
}

/// A UUID, of which `high` has the first half.
fn uuid(high: u64, low: u64) -> String {
    let digits = |number: u64, width| PaddedDigits(16, number, width);
    let first = (
        digits(high >> 32, 8),
        "-",
        digits(high >> 16 & 0xFFFF, 4),
        "-",
        digits(high & 0xFFFF, 4),
    );
    let last = (
        digits(low >> 48, 4),
        "-",
        digits(low & 0xFFFF_FFFF_FFFF, 12),
    );
    Lower((first, "-", last)).to_str(&mut [0; 36]).to_owned()
}

/// An IPv6 address without `::`.
fn address(groups: [u16; 8]) -> String {
    Joined(&groups.map(|group| Lower(Hex(group))), ":")
        .to_str(&mut [0; 39])
        .to_owned()
}

/// A line of a dump: the offset, and sixteen bytes.
fn dump_line(offset: u32, bytes: &[u8; 16]) -> String {
    let line = (
        PaddedDigits(16, offset, 8),
        "  ",
        HexBytes(bytes, " "),
        "\n",
    );
    line.to_str(&mut [0; 58]).to_owned()
}

/// A line of a log, with the time since its start in seconds.
fn log_line(seconds: u32, level: &str, celsius: Option<i32>) -> String {
    // There may be more than 99 hours, for which `Padded` would panic.
    let time = (
        ZeroPadded(seconds / 3600, 2),
        ":",
        Padded(seconds / 60 % 60, 2),
        ":",
        Padded(seconds % 60, 2),
    );
    let temperature = celsius.map(|celsius| (" ", celsius, " °C"));
    let mut line = String::new();
    line.push_part((time, " [", level, "]", temperature));
    line
}

fn main() {
    assert_eq!(identifier(1000), "rs");
    assert_eq!(csv_row("shoe", -1995, &[38, 40]), "shoe,-19.95,38 40\n");
    assert_eq!(
        uuid(0x0123_4567_89ab_cdef, 42),
        "01234567-89ab-cdef-0000-00000000002a"
    );
    assert_eq!(
        address([0x2001, 0xdb8, 0, 0, 0, 0, 0, 1]),
        "2001:db8:0:0:0:0:0:1"
    );
    assert_eq!(dump_line(16, b"0123456789abcdef").len(), 58);
    assert_eq!(log_line(3661, "info", Some(-4)), "01:01:01 [info] -4 °C");
    assert_eq!(log_line(360_000, "info", None), "100:00:00 [info]");
    print!("{}", log_line(3661, "info", None) + "\n");
}
