// Made by `strip` from crates/lexical_parts/src/part.rt. Edit that file, not this one.

//! The trait that each part of a text implements.

use crate::parts::sealed::Sealed;
use crate::write_integer::buffer::{copy_to_front, front_mut};
use core::str::{from_utf8, from_utf8_unchecked};

/// A value that has a text, such as a number or a `&str`. A tuple of 2 to 12 parts is also a part, and its
/// text consists of the texts of its elements, in order: `(250, " g")` writes `250 g`.
///
/// A longer tuple has tuples in it: `((a, b), (c, d))` writes what `(a, b, c, d)` writes. A tuple of one element,
/// `(part,)`, is not a part. For a `String` write `string.as_str()`, or, with the Cargo feature `alloc`, `&string`. A
/// literal needs a type where the part takes unsigned numbers only: `Hex(255u8)` and `Digits(36, 1000u32)`,
/// and not `Hex(255)`.
///
/// A part is *valid* if it meets the condition of its type: a radix is from 2 to 36, and a padded number
/// fits in its width. A part that contains parts is valid if they are valid. A part without a condition is
/// always valid.
///
/// ```
/// use cojimuran::Part;
///
/// assert_eq!((250, " g").to_str(&mut [0; 64]), "250 g");
/// ```
#[diagnostic::on_unimplemented(
    message = "`{Self}` is not a part",
    note = "pass a `String` as `string.as_str()`, a list as `Joined(&list, separator)`, and bytes as `Bytes(bytes)`",
    note = "pass another value with `Display` as `Displayed(&value)`, and one with `Debug` by `format_args!` in it",
    note = "a tuple has 2 to 12 members; a part of your own needs `impl Part`"
)]
pub trait Part: Copy {
    /// Returns the room: a length of a buffer that is always enough for the text, or `usize::MAX` if that length does
    /// not fit in a `usize`. The part must be valid.
    ///
    /// # Panics
    ///
    /// If the part is not valid, for [some parts](crate::conditions#valid-parts).
    #[must_use]
    fn room(self) -> usize;

    /// Writes the text to the start of the buffer, and returns its length. Every byte after the text is unchanged. The
    /// part must be valid, and the buffer must have `room` bytes or more. (A shorter buffer [may happen to be
    /// enough](crate::conditions#what-happens-otherwise).)
    ///
    /// # Panics
    ///
    /// If the part is not valid, or if the buffer is [too short](crate::conditions).
    fn write_to(self, buffer: &mut [u8]) -> usize;

    /// Returns the length of the text, if the part knows it without writing the text, and otherwise `None`. The default
    /// returns `None`. The part must be valid.
    ///
    /// # Panics
    ///
    /// If the part is not valid, for [some parts](crate::conditions#valid-parts).
    #[must_use]
    #[inline]
    fn text_len(self) -> Option<usize> {
        None
    }

    // Whether the values of the part show that it is valid and that its text is UTF-8. A part of another crate cannot
    // define this method, since it cannot name `Sealed`.
    #[doc(hidden)]
    #[must_use]
    #[inline(always)]
    #[track_caller]
    fn is_known_valid_and_utf8(self, _sealed: Sealed) -> bool {
        false
    }

    // Returns a number of bytes that is enough for the text, as `room` does. It may be larger, and then takes fewer
    // instructions.
    #[doc(hidden)]
    #[must_use]
    #[inline(always)]
    #[track_caller]
    fn room_bound(self, _sealed: Sealed) -> usize {
        self.room()
    }

    /// Writes the text to the start of the buffer, and returns those bytes of the buffer, which the
    /// caller may read and change. Every byte after the text is unchanged. The part must be valid, and the buffer must
    /// have `room` bytes or more.
    ///
    /// # Panics
    ///
    /// If the part is not valid, or if the buffer is [too short](crate::conditions).
    #[inline(always)]
    #[track_caller]
    fn to_text(self, buffer: &mut [u8]) -> &mut [u8] {
        assert!(
            has_room(self, buffer),
            "the buffer is shorter than the room of the part"
        );
        let count = self.write_to(buffer);
        front_mut(buffer, count)
    }

    /// Writes the text to the buffer from `index` on, and returns the index after the text. Every other byte is
    /// unchanged. The part must be valid, and the buffer must have `room` bytes or more from `index` on. (Fewer bytes
    /// [may happen to be enough](crate::conditions#what-happens-otherwise).)
    ///
    /// # Panics
    ///
    /// If the part is not valid, or if the buffer is [too short](crate::conditions).
    #[inline(always)]
    #[track_caller]
    fn write_at(self, index: usize, buffer: &mut [u8]) -> usize {
        index + self.write_to(&mut buffer[index..])
    }

    /// Writes the text to the start of the buffer if it fits, and returns its length; every byte after the text is
    /// unchanged. If it does not fit, returns `None`, and the buffer is unchanged. If the room is above 256 bytes,
    /// returns `None` for each buffer that is shorter than the room, even if the text fits. Only lengths are tested:
    /// the part must be valid.
    ///
    /// # Panics
    ///
    /// If the part is not valid. If its room is above 256 bytes, it may return `None` instead.
    #[inline(always)]
    #[track_caller]
    fn try_write_to(self, buffer: &mut [u8]) -> Option<usize> {
        if self.room() <= buffer.len() {
            return Some(self.write_to(buffer));
        }
        write_if_it_fits(self, buffer)
    }

    /// Writes the text to the start of the buffer, and returns it as a `&str`, which borrows the buffer. Every byte
    /// after the text is unchanged. The part must be valid, each [`Byte`](super::Byte) in it and each fill byte of a
    /// column must be below 128, each [`Bytes`](super::Bytes) in it must be UTF-8, and the buffer must have `room`
    /// bytes or more.
    ///
    /// `std::str::from_utf8` reads the text once to check it if there is a `Displayed`, a reference to a `String` or a
    /// part of your own in it, if a byte or a fill in it is 128 or above, or if a `Bytes` in it is not UTF-8 by itself.
    /// Other texts need no check.
    ///
    /// # Panics
    ///
    /// If the part is not valid, or if the text of the part is not UTF-8, or if the buffer is
    /// [too short](crate::conditions).
    #[inline(always)]
    #[track_caller]
    #[allow(unsafe_code)]
    fn to_str(self, buffer: &mut [u8]) -> &str {
        let is_known_utf8 = self.is_known_valid_and_utf8(Sealed);
        let text = self.to_text(buffer);
        if is_known_utf8 {
            debug_assert!(from_utf8(text).is_ok());
            // SAFETY: the part is valid, it is UTF-8, and the buffer has its room. So `to_text` ensures `utf8`: the
            // text is UTF-8.
            unsafe { from_utf8_unchecked(text) }
        } else {
            let checked = from_utf8(text);
            assert!(checked.is_ok(), "the text is not UTF-8");
            checked.unwrap()
        }
    }

    /// Returns the text as `to_str` does, if `try_write_to` writes it. Otherwise returns `None`. The part must meet the
    /// other conditions of `to_str`.
    ///
    /// # Panics
    ///
    /// If the part is not valid, or if the text of the part is not UTF-8. If its room is above 256 bytes, it may return
    /// `None` instead.
    #[inline(always)]
    #[track_caller]
    fn try_to_str(self, buffer: &mut [u8]) -> Option<&str> {
        if self.room() <= buffer.len() {
            return Some(self.to_str(buffer));
        }
        str_if_it_fits(self, buffer)
    }
}

// Writes the text to the start of a buffer that is shorter than the room, if the room is at most 256 bytes and the
// buffer is as long as the text. If rustc did not inline it, each caller would write its part to the stack for this
// call.
#[inline(always)]
#[track_caller]
fn write_if_it_fits<P: Part>(part: P, buffer: &mut [u8]) -> Option<usize> {
    let mut array = [0; 256];
    if array.len() < part.room() {
        return None;
    }
    let text = part.to_text(&mut array);
    if buffer.len() < text.len() {
        return None;
    }
    Some(copy_to_front(text, buffer))
}

// Returns what `write_if_it_fits` writes as a `&str`.
#[inline(always)]
#[track_caller]
fn str_if_it_fits<P: Part>(part: P, buffer: &mut [u8]) -> Option<&str> {
    let count = write_if_it_fits(part, buffer)?;
    let checked = from_utf8(&buffer[..count]);
    assert!(checked.is_ok(), "the text is not UTF-8");
    Some(checked.unwrap())
}

// Returns whether the buffer has the room of the part.
#[inline(always)]
#[track_caller]
fn has_room<P: Part>(part: P, buffer: &[u8]) -> bool {
    part.room_bound(Sealed) <= buffer.len() || part.room() <= buffer.len()
}
