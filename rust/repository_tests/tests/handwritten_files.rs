//! What the package has by hand: the ends of a `Vec` and of a `String`, files, values with `Display`, and owned
//! strings.

use cojimuran::{
    Bytes, Center, Digits, Displayed, Joined, Left, Lower, Padded, Part, PushPart, Right, Show, Shown, WritePart,
    ZeroPadded,
};
use std::borrow::Cow;
use std::cell::Cell;
use std::fmt::{self, Write};
use std::io::{self, ErrorKind};
use std::net::Ipv4Addr;
#[cfg(target_arch = "x86_64")]
use std::os::unix::process::ExitStatusExt;
use std::panic::{AssertUnwindSafe, catch_unwind};
#[cfg(target_arch = "x86_64")]
use std::process::Command;

#[test]
fn ends_of_strings_and_vectors() {
    // The first text is shorter than its room, and the second as long.
    for (count, number) in [0, 1, 12, 13, 100].into_iter().flat_map(|count| [(count, 7), (count, u64::MAX)]) {
        // Each room is 20 bytes, so 13 numbers have more than 256.
        let numbers = vec![number; count];
        let expected = format!("é{}", vec![number.to_string(); count].join(","));
        let mut string = String::from("é");
        string.push_part(Joined(&numbers, ","));
        assert_eq!(string, expected);
        for spare in [0, 1, 300, 3000] {
            let mut bytes = Vec::with_capacity(2 + spare);
            bytes.extend_from_slice("é".as_bytes());
            bytes.push_part(Joined(&numbers, ","));
            assert_eq!(bytes, expected.as_bytes());
        }
    }
    // The room of these digits is 39 bytes, but 20 numbers of 64 bits can have 279.
    let digits = [Digits(36, 7u64); 20];
    let expected = ["7"; 20].join(",");
    let (mut string, mut bytes) = (String::new(), Vec::new());
    string.push_part(Joined(&digits, ","));
    bytes.push_part(Joined(&digits, ","));
    assert_eq!((string.as_str(), bytes.as_slice()), (expected.as_str(), expected.as_bytes()));
    assert!(bytes.capacity() < 279);
    // A `Displayed` does not tell how long it is.
    let long = Displayed(&f64::MAX);
    let (mut string, mut bytes) = (String::new(), Vec::with_capacity(1000));
    string.push_part(long);
    bytes.push_part(long);
    assert_eq!((string.as_str(), bytes.as_slice()), (&*f64::MAX.to_string(), f64::MAX.to_string().as_bytes()));
}

/// A child process runs this test again with the name of a variable, since the process that runs out of memory aborts.
/// With pointers of 32 bits a machine may have the memory for every vector, and an emulator cannot start a child.
#[cfg(target_arch = "x86_64")]
#[test]
fn a_vector_without_memory_aborts() {
    const NAME: &str = "PUSH_WITHOUT_MEMORY";
    if std::env::var_os(NAME).is_some() {
        Vec::new().push_part(Left("", 1 << 62, b' '));
    } else {
        let mut child = Command::new(std::env::current_exe().unwrap());
        let ran = child.args(["--exact", "a_vector_without_memory_aborts"]).env(NAME, "1").output().unwrap();
        assert_eq!(ran.status.signal(), Some(6), "{ran:?}");
        assert!(String::from_utf8(ran.stderr).unwrap().contains("memory allocation of"));
    }
}

#[test]
fn only_what_the_text_needs_is_reserved() {
    let row = (1u64, ",", Digits(2, 2u64));
    let (mut string, mut bytes) = (String::new(), Vec::new());
    string.push_part(row);
    bytes.push_part(row);
    assert_eq!((string.as_str(), bytes.as_slice()), ("1,10", b"1,10".as_slice()));
    // The least that the standard library reserves.
    assert_eq!((string.capacity(), bytes.capacity()), (8, 8));
    // A room of 256 bytes is the largest that is not reserved.
    let line = ("line ", Joined(&[7u64; 12], ","));
    let mut bytes = Vec::new();
    bytes.push_part(line);
    assert_eq!((line.room(), bytes.len()), (256, 28));
    assert!(bytes.capacity() < 64);
}

#[test]
fn strings_stay_as_they_are_if_a_part_is_refused() {
    let mut string = String::from("ab");
    assert!(catch_unwind(AssertUnwindSafe(|| string.push_part(Bytes(&[200])))).is_err());
    assert!(catch_unwind(AssertUnwindSafe(|| string.push_part((1u8, Padded(123u8, 2))))).is_err());
    assert!(catch_unwind(AssertUnwindSafe(|| string.push_part(("cd", 5u8, Bytes(&[200; 300]))))).is_err());
    assert_eq!(string, "ab");
}

#[test]
fn files() {
    let mut file = Vec::new();
    file.write_part(("id=", 7u8, ",", "é")).unwrap();
    let writer: &mut dyn io::Write = &mut file;
    writer.write_part(Joined(&[u64::MAX; 13], ",")).unwrap();
    writer.write_part((Displayed(&-1.5), &String::from("a"))).unwrap();
    let list = vec![u64::MAX.to_string(); 13].join(",");
    assert_eq!(file, format!("id=7,é{list}-1.5a").as_bytes());
    // A text of at most 256 bytes is one piece, whatever is in it. A longer one is cut between its members.
    let (mut pieces, name) = (Pieces(Vec::new()), "n".repeat(255));
    pieces.write_part(("a", 7u8, true)).unwrap();
    pieces.write_part(("a", Displayed(&7), &String::from("b"))).unwrap();
    pieces.write_part((7u8, name.as_str())).unwrap();
    pieces.write_part((17u8, name.as_str(), 5u8)).unwrap();
    pieces.write_part((7u8, "n".repeat(257).as_str(), 5u8)).unwrap();
    let (one, long) = (format!("7{name}"), "n".repeat(257));
    assert_eq!(pieces.0, ["a7true", "a7b", &one, "17", &format!("{name}5"), "7", &long, "5"]);
}

#[test]
fn parts_that_are_not_written_to_a_file() {
    let mut file = Vec::new();
    for (result, message) in [
        (file.write_part(Padded(123u8, 2)), "the part is not valid, or has bytes that are not UTF-8"),
        (file.write_part(("no", Padded(123u8, 2))), "the part is not valid, or has bytes that are not UTF-8"),
        (file.write_part(Bytes(&[200])), "the part is not valid, or has bytes that are not UTF-8"),
        (file.write_part(Displayed(&Never)), "a `Display` or a part of your own returned an error"),
    ] {
        let error = result.unwrap_err();
        assert!(error.kind() == ErrorKind::InvalidInput && error.to_string().starts_with(message), "{error:?}");
    }
    assert_eq!(file, b"");
}

/// A writer that keeps each piece that is written, and has no place for an `!`.
struct Pieces(Vec<String>);

impl io::Write for Pieces {
    fn write(&mut self, bytes: &[u8]) -> io::Result<usize> {
        if bytes.contains(&b'!') {
            return Err(ErrorKind::StorageFull.into());
        }
        self.0.push(String::from_utf8(bytes.to_vec()).unwrap());
        Ok(bytes.len())
    }

    fn flush(&mut self) -> io::Result<()> {
        Ok(())
    }
}

#[test]
fn errors_of_a_file_are_returned() {
    let mut pieces = Pieces(Vec::new());
    assert_eq!(pieces.write_part(("a", 7u8, "!")).unwrap_err().kind(), ErrorKind::StorageFull);
    assert_eq!(pieces.write_part(("a", Displayed(&7), "!b")).unwrap_err().kind(), ErrorKind::StorageFull);
    assert_eq!(pieces.write_part(("a", "n".repeat(256).as_str(), "!")).unwrap_err().kind(), ErrorKind::StorageFull);
    assert_eq!(pieces.write_part(("!", "n".repeat(256).as_str())).unwrap_err().kind(), ErrorKind::StorageFull);
    assert_eq!(pieces.write_part(("a", "!".repeat(257).as_str())).unwrap_err().kind(), ErrorKind::StorageFull);
    assert_eq!(pieces.0, ["a", &"n".repeat(256), "a"]);
}

#[test]
fn values_with_display() {
    let address = Ipv4Addr::new(127, 0, 0, 1);
    let line = ("t=", Displayed(&-1.5), " at ", Displayed(&address), ":", 80u16);
    let text = "t=-1.5 at 127.0.0.1:80";
    assert_eq!(line.to_str(&mut [0; 40]), text);
    assert_eq!((line.text_len(), line.room()), (Some(22), 25));
    assert_eq!(format!("{:>30}", Shown(line)), format!("{text:>30}"));
    assert_eq!(Displayed("text").to_text(&mut [0; 4]), b"text");
    assert_eq!(format!("{:>6.1}", Displayed(&-1.25)), "  -1.2");
    assert_eq!(Displayed(&format_args!("{:.3}", 0.25)).to_text(&mut [0; 9]), b"0.250");
    let mut exact = [b'?'; 23];
    assert_eq!(line.try_write_to(&mut exact[..21]), None);
    assert_eq!(line.try_write_to(&mut exact[..22]), Some(22));
    assert_eq!(&exact, b"t=-1.5 at 127.0.0.1:80?");
    let mut pieces = String::new();
    line.write_pieces(&mut pieces).unwrap();
    assert_eq!(pieces, text);
}

/// A value that counts how often it is formatted.
struct Counted(Cell<usize>);

impl fmt::Display for Counted {
    fn fmt(&self, f: &mut fmt::Formatter<'_>) -> fmt::Result {
        self.0.set(self.0.get() + 1);
        f.write_str("text")
    }
}

#[test]
fn how_often_a_value_is_formatted() {
    let value = Counted(Cell::new(0));
    let line = ("a", Displayed(&value), 7u64);
    let check = |times, name: &str, call: &dyn Fn()| {
        value.0.set(0);
        call();
        assert_eq!(value.0.get(), times, "{name}");
    };
    check(1, "to_str", &|| assert_eq!(line.to_str(&mut [0; 25]), "atext7"));
    check(1, "to_text", &|| assert_eq!(line.to_text(&mut [0; 25]), b"atext7"));
    check(2, "try_to_str", &|| assert_eq!(line.try_to_str(&mut [0; 25]), Some("atext7")));
    check(1, "write_pieces", &|| line.write_pieces(&mut String::new()).unwrap());
    check(1, "push_part to a String", &|| String::new().push_part(line));
    check(2, "push_part to a Vec", &|| Vec::new().push_part(line));
    check(1, "write_part", &|| Vec::new().write_part(line).unwrap());

    let column = Right(Displayed(&value), 6, b'.');
    check(1, "to_str of a column", &|| assert_eq!(column.to_str(&mut [0; 6]), "..text"));
    check(2, "write_pieces of a column", &|| column.write_pieces(&mut String::new()).unwrap());
    check(3, "write_pieces of a column in a column", &|| {
        Left(column, 8, b'.').write_pieces(&mut String::new()).unwrap();
    });
    check(2, "push_part to a Vec of a column", &|| Vec::new().push_part(column));
    let list = [Displayed(&value)];
    check(1, "to_str of Joined", &|| assert_eq!(Joined(&list, "").to_str(&mut [0; 4]), "text"));
}

#[test]
fn values_with_display_need_no_room_but_their_text() {
    // The room of the first part of the line, and the text of the second.
    let line = (7u64, Displayed(&12345));
    assert!(catch_unwind(|| line.to_str(&mut [0; 19]).len()).is_err());
    assert_eq!(line.to_str(&mut [0; 20]), "712345");
    assert!(catch_unwind(|| Displayed(&12345).to_str(&mut [0; 4]).len()).is_err());
    assert_eq!(Displayed(&12345).to_str(&mut [0; 5]), "12345");
}

/// A value that cannot be formatted.
struct Never;

impl fmt::Display for Never {
    fn fmt(&self, _: &mut fmt::Formatter<'_>) -> fmt::Result {
        Err(fmt::Error)
    }
}

#[test]
fn values_that_are_not_written() {
    assert!(catch_unwind(|| Displayed(&Never).room()).is_err());
    assert!(catch_unwind(|| Displayed(&Never).write_to(&mut [0; 9])).is_err());
    assert!(catch_unwind(|| Displayed(&12345).write_to(&mut [0; 4])).is_err());
    assert_eq!(Displayed(&Never).text_len(), None);
    check_error(Displayed(&Never));
    check_error(("a", Displayed(&Never)));
    check_error(Some(Displayed(&Never)));
    check_error(Joined(&[Displayed(&Never)], ","));
    check_error(Left(Displayed(&Never), 5, b' '));
    check_error(Right(Displayed(&Never), 5, b' '));
    check_error(Center(Displayed(&Never), 500, b' '));
    check_error(ZeroPadded(Displayed(&Never), 5));
    check_error(Lower(Displayed(&Never)));
}

/// Checks that a part which is not written is an error where no buffer is passed, and a panic where one is.
fn check_error(part: impl Show) {
    assert!(part.write_pieces(&mut String::new()).is_err());
    assert!(write!(String::new(), "{}", Shown(part)).is_err());
    assert!(write!(String::new(), "{:9.2}", Shown(part)).is_err());
    assert!(catch_unwind(AssertUnwindSafe(|| part.to_str(&mut [0; 999]).len())).is_err());
    assert!(catch_unwind(AssertUnwindSafe(|| String::new().push_part(part))).is_err());
}

#[test]
fn owned_strings() {
    let (string, boxed, cow) = (String::from("é"), Box::<str>::from("b"), Cow::Borrowed("c"));
    let parts = (&string, &boxed, &cow, &"d", &&"e", 5u8);
    assert_eq!(parts.to_str(&mut [0; 9]), "ébcde5");
    assert_eq!((parts.text_len(), parts.room()), (Some(7), 9));
    assert_eq!(format!("{:*^9}", Shown((&string, &cow))), "***éc****");
    assert_eq!(Joined(&[&string, &string], "-").to_text(&mut [0; 5]), "é-é".as_bytes());
}
