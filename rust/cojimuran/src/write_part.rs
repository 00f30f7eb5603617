//! Parts in a file or another `io::Write`. This file is written by hand: what it writes is made by generated code.

use crate::parts::Show;
use crate::parts::sealed::Sealed;
use crate::parts::show::MOST_IN_ONE_PIECE;
use crate::push_part::why_refused;
use core::fmt;
use std::io::{Error, ErrorKind, Result, Write};

/// Writes a part to a file, to `stdout` or to any other `io::Write`, with the feature `std`, which is on by default.
///
/// ```
/// use cojimuran::{Hex, WritePart};
/// use std::io::{BufWriter, Write};
///
/// # fn main() -> std::io::Result<()> {
/// let mut file = BufWriter::new(Vec::new());
/// file.write_part(("id=", 7u8, " flags=0x", Hex(255u16), "\n"))?;
/// file.flush()?;
/// assert_eq!(file.get_ref(), b"id=7 flags=0xFF\n");
/// # Ok(())
/// # }
/// ```
pub trait WritePart: Write {
    /// Writes the text of a part. The part must be valid, each [`Bytes`](crate::Bytes) in it must be UTF-8, and each
    /// [`Byte`](crate::Byte) and fill byte below 128.
    ///
    /// A text of at most 256 bytes is written by one call of `write_all`. For many texts put a file or a socket into a
    /// `BufWriter`, as for every other `io::Write`.
    ///
    /// # Errors
    ///
    /// Returns the error of the writer. If the part is not valid, or has bytes that are not UTF-8, or a `Display` or a
    /// part of your own returns an error, returns an error of the kind `InvalidInput`. The writer then has nothing of a text of
    /// at most 256 bytes, and may have the start of a longer one.
    fn write_part<P: Show>(&mut self, part: P) -> Result<()>;
}

// It is inlined for the same reason as `push_part`.
impl<W: Write + ?Sized> WritePart for W {
    #[cfg_attr(not(debug_assertions), inline(always))]
    fn write_part<P: Show>(&mut self, part: P) -> Result<()> {
        if part.is_known_valid_and_utf8(Sealed) && part.room_bound(Sealed) <= MOST_IN_ONE_PIECE {
            return self.write_all(part.to_text(&mut [0; MOST_IN_ONE_PIECE]));
        }
        let mut pieces = Pieces::of(self);
        if part.write_pieces(&mut pieces).is_err() {
            let refused = || Error::new(ErrorKind::InvalidInput, why_refused(part));
            return Err(pieces.error.unwrap_or_else(refused));
        }
        pieces.write_collected()
    }
}

/// A writer of bytes that collects pieces of text, and keeps its error.
struct Pieces<'a, W: ?Sized> {
    writer: &'a mut W,
    collected: [u8; MOST_IN_ONE_PIECE],
    count: usize,
    error: Option<Error>,
}

impl<'a, W: Write + ?Sized> Pieces<'a, W> {
    fn of(writer: &'a mut W) -> Self {
        Pieces {
            writer,
            collected: [0; MOST_IN_ONE_PIECE],
            count: 0,
            error: None,
        }
    }

    fn write_collected(&mut self) -> Result<()> {
        let count = core::mem::take(&mut self.count);
        self.writer.write_all(&self.collected[..count])
    }

    /// Collects a piece. If there is no room for it, first writes what is collected, and a long piece by itself.
    fn put(&mut self, piece: &[u8]) -> Result<()> {
        if self.collected.len() - self.count < piece.len() {
            self.write_collected()?;
        }
        if self.collected.len() < piece.len() {
            return self.writer.write_all(piece);
        }
        self.collected[self.count..][..piece.len()].copy_from_slice(piece);
        self.count += piece.len();
        Ok(())
    }
}

impl<W: Write + ?Sized> fmt::Write for Pieces<'_, W> {
    fn write_str(&mut self, piece: &str) -> fmt::Result {
        self.put(piece.as_bytes()).map_err(|error| {
            self.error = Some(error);
            fmt::Error
        })
    }
}
