// Made by `strip` from crates/lexical_write_integer/src/lib.rt. Edit that file, not this one.

//! Writing integers as text, in every radix from 2 to 36.
//!
//! `to_lexical` writes a number in decimal to the start of a buffer and returns its text. No other byte
//! of the buffer changes:
//!
//! ```
//! use cojimuran::ToLexical;
//!
//! let mut buffer = [7u8; 20];
//! let text = 1234u64.to_lexical(&mut buffer);
//! assert_eq!(&*text, b"1234".as_slice());
//! assert!(buffer[4..].iter().all(|byte| *byte == 7));
//! ```
//!
//! `to_lexical_with_options` writes it in a format, with a required sign, in another radix or in groups:
//!
//! ```
//! use cojimuran::{NumberFormatBuilder, Options, ToLexicalWithOptions};
//!
//! let mut buffer = [7u8; 20];
//! let signed = NumberFormatBuilder::new()
//!     .required_mantissa_sign(true)
//!     .build_strict();
//! let text = 127i8.to_lexical_with_options(&mut buffer, &signed, &Options::new());
//! assert_eq!(&*text, b"+127".as_slice());
//! ```

// The texts of numbers: the calls that most callers want.
mod texts;

// The digits of a number in any radix, without a sign.
mod digits;

// The start of a buffer.
pub mod buffer;

pub mod options;

pub use crate::num::constants::{BUFFER_SIZE, FormattedSize};
pub use crate::num::error::{Error, Result};
pub use crate::num::format;
pub use crate::num::format::NumberFormat;
pub use crate::num::format_builder::NumberFormatBuilder;
pub use crate::num::options::{Options, OptionsBuilder, WriteOptions};
pub use digits::decimal::jeaiii;
pub use digits::radix::{algorithm, compact};
pub use digits::{count as digit_count, decimal, padded, radix, write};
pub use texts::groups::group_digits;
pub use texts::to_lexical::{ToLexical, ToLexicalWithOptions, sign_len, write_sign};
