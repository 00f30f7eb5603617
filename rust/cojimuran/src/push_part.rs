//! Parts at the end of a `String` or a `Vec`. This file is written by hand: it finds the room for what generated code
//! writes, or takes that in pieces.

use crate::parts::Show;
use crate::parts::sealed::Sealed;
use crate::parts::show::MOST_IN_ONE_PIECE;
use alloc::string::String;
use alloc::vec::Vec;

/// Appends a part to a `String` or a `Vec<u8>`, with the feature `alloc`, which is on by default.
///
/// ```
/// use cojimuran::{Fixed, Joined, PushPart};
///
/// let row = (7u32, ",", Fixed(1999u32, 2), ",", Joined(&[38u8, 40], " "), "\n");
/// let mut csv = String::from("id,price,sizes\n");
/// csv.push_part(row);
/// assert_eq!(csv, "id,price,sizes\n7,19.99,38 40\n");
///
/// let mut bytes = b"id,price,sizes\n".to_vec();
/// bytes.push_part(row);
/// assert_eq!(bytes, csv.as_bytes());
/// ```
///
/// An iterator is written by a loop, and a function of your own can write to either target:
///
/// ```
/// use cojimuran::PushPart;
///
/// fn push_squares(target: &mut impl PushPart) {
///     for number in (1u64..).map(|number| number * number).take(3) {
///         target.push_part((number, ";"));
///     }
/// }
///
/// let mut squares = String::new();
/// push_squares(&mut squares);
/// assert_eq!(squares, "1;4;9;");
/// ```
pub trait PushPart: sealed::Sealed {
    /// Appends the text of a part. The part must be valid. For a `String` each [`Bytes`](crate::Bytes) in it must be
    /// UTF-8, and each [`Byte`](crate::Byte) and fill byte below 128.
    ///
    /// If the longest text of such a part has at most 256 bytes, the text is written in one piece, and the `String` or
    /// `Vec` grows by its length. Otherwise it goes to a `String` in pieces, as by
    /// [`write_pieces`](Show::write_pieces), and for a `Vec` its whole [`room`](crate::Part::room) may be reserved. A
    /// `String` also gets a text in pieces if a [`Displayed`](crate::Displayed), a reference to a `String` or a part of
    /// your own is in it.
    ///
    /// # Panics
    ///
    /// If the part is not valid, or has bytes for a `String` that are not UTF-8, and if a `Display` or a part of your
    /// own returns an error, or a `Vec` would reserve more than `isize::MAX` bytes. A `String` is then unchanged, and a
    /// `Vec` may have some of the text and zeros at its end. If there is not enough memory, the process aborts, as it
    /// does for `Vec::push`.
    #[track_caller]
    fn push_part<P: Show>(&mut self, part: P);
}

mod sealed {
    pub trait Sealed {}

    impl Sealed for super::Vec<u8> {}
    impl Sealed for super::String {}
}

/// Returns why `write_pieces` of a part has returned an error, although its writer has not.
#[cold]
pub(crate) fn why_refused<P: Show>(part: P) -> &'static str {
    if part.is_showable() {
        "a `Display` or a part of your own returned an error (above 256 bytes a part needs `write_pieces`)"
    } else {
        "the part is not valid, or has bytes that are not UTF-8"
    }
}

/// Returns a number of bytes that is enough for the text, and counts no digits for it if an array is large enough.
#[track_caller]
#[cfg_attr(not(debug_assertions), inline(always))]
fn enough_room<P: Show>(part: P) -> usize {
    if part.is_known_valid_and_utf8(Sealed) {
        let bound = part.room_bound(Sealed);
        if bound <= MOST_IN_ONE_PIECE {
            return bound;
        }
    }
    part.room()
}

// With a constant radix in a caller, only what is inlined there has only the code of that radix. A debug build would
// keep the array of each inlined call on the stack.
impl PushPart for Vec<u8> {
    #[cfg_attr(not(debug_assertions), inline(always))]
    fn push_part<P: Show>(&mut self, part: P) {
        let (start, room) = (self.len(), enough_room(part));
        if room <= MOST_IN_ONE_PIECE && self.capacity() - start < room {
            self.extend_from_slice(part.to_text(&mut [0; MOST_IN_ONE_PIECE]));
            return;
        }
        self.resize(start.saturating_add(room), 0);
        let end = part.write_at(start, self);
        self.truncate(end);
    }
}

impl PushPart for String {
    #[cfg_attr(not(debug_assertions), inline(always))]
    fn push_part<P: Show>(&mut self, part: P) {
        // Other texts go out in pieces: each of these is a `&str` already, and a `Displayed` is formatted only once.
        if part.is_known_valid_and_utf8(Sealed) && part.room_bound(Sealed) <= MOST_IN_ONE_PIECE {
            self.push_str(part.to_str(&mut [0; MOST_IN_ONE_PIECE]));
            return;
        }
        let start = self.len();
        if part.write_pieces(self).is_err() {
            self.truncate(start);
            panic!("{}", why_refused(part));
        }
    }
}
