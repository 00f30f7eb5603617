//! The room of each part, which its longest text fills, and the length of that text: `try_write_to` writes to a buffer
//! of either length, and not to one that is a byte shorter than the text. The traits of each part, and rooms near the
//! largest `usize`.

use cojimuran::*;
use repository_tests::each_part;
use repository_tests::parts::{LONGEST, Values};
use std::fmt::Debug;
use std::hash::Hash;
use std::panic::{RefUnwindSafe, UnwindSafe};

fn has_traits<P: Part + Eq + Hash + Debug + Send + Sync + Unpin + UnwindSafe + RefUnwindSafe>(_part: P) {}

/// Compares the room of a part, which copies it, and what it writes, with a text of that length.
macro_rules! check_rooms {
    ($v:ident; $($room:literal, $text:literal => $part:expr $(, where $($field:ident = $value:expr),+)?;)+) => { $(
        let $v = Values { $($($field: $value,)+)? ..LONGEST };
        // Some parts are of no value.
        _ = $v;
        let name = stringify!($part);
        has_traits($part);
        assert_eq!($part.room(), $room, "the room of {name}");
        let mut buffer = [b'?'; 130];
        let length = $text.len();
        assert_eq!($part.text_len(), Some(length), "the length of {name}");
        if let Some(short) = length.checked_sub(1) {
            assert_eq!($part.try_write_to(&mut buffer[..short]), None, "{name} in a short buffer");
            assert_eq!(buffer, [b'?'; 130], "{name} in a short buffer");
        }
        for count in [$room, length] {
            buffer.fill(b'?');
            assert_eq!($part.try_write_to(&mut buffer[..count]), Some(length), "the length of {name}");
            assert_eq!(buffer[..length], *$text.as_bytes(), "{name}");
            assert_eq!(buffer[count..], [b'?'; 130][count..], "what follows {name}");
        }
        let mut bytes = b"ab".to_vec();
        bytes.push_part($part);
        assert_eq!(bytes, [b"ab", $text.as_bytes()].concat(), "{name} at the end of a vector");
        let mut string = String::from("ab");
        string.push_part($part);
        assert_eq!(string, format!("ab{}", $text), "{name} at the end of a string");
        let mut file = b"ab".to_vec();
        file.write_part($part).unwrap();
        assert_eq!(file, bytes, "{name} in a file");
    )+ };
}

#[test]
fn rooms_of_parts() {
    each_part!(check_rooms);
}

#[test]
fn rooms_of_tuples() {
    check_rooms! { _v;
        2, "ab" => ("a", "b");
        3, "abc" => ("a", "b", "c");
        4, "abcd" => ("a", "b", "c", "d");
        5, "abcde" => ("a", "b", "c", "d", "e");
        6, "abcdef" => ("a", "b", "c", "d", "e", "f");
        7, "abcdefg" => ("a", "b", "c", "d", "e", "f", "g");
        8, "abcdefgh" => ("a", "b", "c", "d", "e", "f", "g", "h");
        9, "abcdefghi" => ("a", "b", "c", "d", "e", "f", "g", "h", "i");
        10, "abcdefghij" => ("a", "b", "c", "d", "e", "f", "g", "h", "i", "j");
        11, "abcdefghijk" => ("a", "b", "c", "d", "e", "f", "g", "h", "i", "j", "k");
        12, "abcdefghijkl" => ("a", "b", "c", "d", "e", "f", "g", "h", "i", "j", "k", "l");
    }
}

/// On targets with pointers of 32 bits too.
#[test]
fn rooms_of_a_usize() {
    assert_eq!((7usize.room(), 7isize.room(), Decimal(7usize).room()), (20, 20, 20));
    assert_eq!((Hex(7usize).room(), FullHex(7usize).room(), Binary(7usize).room()), (16, 16, 64));
    assert_eq!(FullHex(7usize).to_str(&mut [0; 16]), "0000000000000007");
}

#[test]
fn rooms_near_the_largest_usize() {
    let grouped = NumberFormatBuilder::new().digit_grouping(1, b',').build_strict();
    let half = usize::MAX / 2;
    let column = Left("", half, b' ');
    assert_eq!((column, "ab").room(), half + 2);
    assert_eq!((column, column).room(), usize::MAX - 1);
    assert_eq!((column, "a", column).room(), usize::MAX);
    assert_eq!((column, "ab", column).room(), usize::MAX);
    assert_eq!(Joined(&[column; 3], ", ").room(), usize::MAX);
    assert_eq!(ZeroPadded(5u8, usize::MAX).room(), usize::MAX);
    assert_eq!((column, "ab", column).try_write_to(&mut [7; 64]), None);
    assert_eq!(grouped.grouped_len(half), usize::MAX - 2);
}
