//! Values that have `Display`, as parts. This file is written by hand and is not proved.

use crate::parts::sealed::Sealed;
use crate::parts::{Part, Show};
use core::fmt::{self, Display, Write};

/// A value that has `Display`, such as a float or an IP address, as a part: its text is what `{}` writes.
///
/// ```
/// use cojimuran::{Displayed, Padded, Part};
///
/// let mut buffer = [0; 64];
/// let row = (7u32, ",", Displayed(&-1.5), ",", Padded(5u8, 2));
/// assert_eq!(row.to_str(&mut buffer), "7,-1.5,05");
///
/// // With a precision or another option, by `format_args!`. Before Rust 1.89 use it within one statement.
/// let text = ("t=", Displayed(&format_args!("{:.3}", 0.25)), " s").to_str(&mut buffer);
/// assert_eq!(text, "t=0.250 s");
/// ```
///
/// The value is formatted once to write it, and once more each time that a call asks for its [`room`](Part::room) or
/// its length: `push_part` to a `Vec` and `{}` with a width or a precision ask once, `to_str` only if the buffer is
/// shorter than the other parts may need, `try_to_str` once or twice, and `write_part`, `write_pieces`, `{}` and
/// `push_part` to a `String` at least once for each column or `ZeroPadded` around the value. It must write the same
/// text each time.
///
/// A `u128` has at most 39 bytes and an `i128` at most 40. Other texts can be long: `{}` of `1e300` has 301 bytes. So
/// take [`room`](Part::room) bytes, a `String`, or a format with a limit such as `{:.3e}`.
///
/// This part is not proved: what it writes is what the `Display` of the value does. If that `Display` returns an error,
/// `write_part`, `write_pieces` and `{}` return an error, and the other calls panic.
#[derive(Debug)]
pub struct Displayed<'a, T: ?Sized>(pub &'a T);

impl<T: ?Sized> Clone for Displayed<'_, T> {
    #[inline]
    fn clone(&self) -> Self {
        *self
    }
}

impl<T: ?Sized> Copy for Displayed<'_, T> {}

impl<T: Display + ?Sized> Display for Displayed<'_, T> {
    #[inline]
    fn fmt(&self, f: &mut fmt::Formatter<'_>) -> fmt::Result {
        self.0.fmt(f)
    }
}

/// A writer that only counts bytes.
struct Count(usize);

impl Write for Count {
    #[inline]
    fn write_str(&mut self, text: &str) -> fmt::Result {
        self.0 = self.0.saturating_add(text.len());
        Ok(())
    }
}

/// A writer to the rest of a buffer. It returns an error if the text does not fit.
struct Rest<'a>(&'a mut [u8]);

impl Write for Rest<'_> {
    #[inline]
    fn write_str(&mut self, text: &str) -> fmt::Result {
        let (front, rest) = core::mem::take(&mut self.0)
            .split_at_mut_checked(text.len())
            .ok_or(fmt::Error)?;
        front.copy_from_slice(text.as_bytes());
        self.0 = rest;
        Ok(())
    }
}

impl<T: Display + ?Sized> Part for Displayed<'_, T> {
    #[inline]
    #[track_caller]
    fn room(self) -> usize {
        self.text_len()
            .expect("the `Display` of the value returned an error")
    }

    #[inline]
    #[track_caller]
    fn write_to(self, buffer: &mut [u8]) -> usize {
        let length = buffer.len();
        let mut rest = Rest(buffer);
        write!(rest, "{}", self.0)
            .expect("the buffer is too short for the value, or its `Display` returned an error");
        length - rest.0.len()
    }

    #[inline]
    fn text_len(self) -> Option<usize> {
        let mut count = Count(0);
        write!(count, "{}", self.0).ok()?;
        Some(count.0)
    }

    // So `to_str` formats the value only once: `write_to` panics if the text does not fit. Nothing else relies on this
    // bound: `to_str` always checks that a text with a `Displayed` in it is UTF-8, and `push_part` asks first whether a
    // part is known to be UTF-8.
    #[inline]
    fn room_bound(self, _sealed: Sealed) -> usize {
        0
    }
}

impl<T: Display + ?Sized> Show for Displayed<'_, T> {
    #[inline]
    fn is_showable(self) -> bool {
        true
    }

    #[inline]
    fn write_pieces<O: Write>(self, out: &mut O) -> fmt::Result {
        write!(out, "{}", self.0)
    }
}
