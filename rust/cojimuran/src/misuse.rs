//! What safe code cannot do, most of it so that no text becomes a `&str` that is not UTF-8 (`Part::to_str`). Only the
//! documentation tests have this module, and each example must not compile. rustdoc checks that it fails with the error
//! that is named here if the variable `RUSTC_BOOTSTRAP` is 1.
//!
//! A part of one's own does not say that it is known to be UTF-8:
//!
//! ```compile_fail,E0425
//! use cojimuran::Part;
//!
//! #[derive(Clone, Copy)]
//! struct Liar;
//!
//! impl Part for Liar {
//!     fn room(self) -> usize { 1 }
//!     fn write_to(self, buffer: &mut [u8]) -> usize { buffer[0] = 200; 1 }
//!     fn is_known_valid_and_utf8(self, _: cojimuran::parts::Sealed) -> bool { true }
//! }
//! ```
//!
//! ```compile_fail,E0603
//! use cojimuran::parts::sealed::Sealed;
//! ```
//!
//! ```compile_fail,E0432
//! use cojimuran::Sealed;
//! ```
//!
//! Nor with a parameter of any type:
//!
//! ```compile_fail,E0049
//! use cojimuran::Part;
//!
//! #[derive(Clone, Copy)]
//! struct Liar;
//!
//! impl Part for Liar {
//!     fn room(self) -> usize { 1 }
//!     fn write_to(self, buffer: &mut [u8]) -> usize { buffer[0] = 200; 1 }
//!     fn is_known_valid_and_utf8<T>(self, _: T) -> bool { true }
//! }
//! ```
//!
//! ```compile_fail,E0053
//! use cojimuran::Part;
//!
//! #[derive(Clone, Copy)]
//! struct Liar<T>(std::marker::PhantomData<T>);
//!
//! impl<T: Copy> Part for Liar<T> {
//!     fn room(self) -> usize { 1 }
//!     fn write_to(self, buffer: &mut [u8]) -> usize { buffer[0] = 200; 1 }
//!     fn is_known_valid_and_utf8(self, _: T) -> bool { true }
//! }
//! ```
//!
//! Nor with the type that inference finds, which no signature can leave open:
//!
//! ```compile_fail,E0121
//! use cojimuran::Part;
//!
//! #[derive(Clone, Copy)]
//! struct Liar;
//!
//! impl Part for Liar {
//!     fn room(self) -> usize { 1 }
//!     fn write_to(self, buffer: &mut [u8]) -> usize { buffer[0] = 200; 1 }
//!     fn is_known_valid_and_utf8(self, _: _) -> bool { true }
//! }
//! ```
//!
//! Nor with the type of the parameter of the method of another part:
//!
//! ```compile_fail,E0207
//! trait Parameter { type Type; }
//!
//! impl<S, T, F: Fn(S, T) -> bool> Parameter for F { type Type = T; }
//! ```
//!
//! Nor by a macro that takes the method of another part:
//!
//! ```compile_fail
//! use cojimuran::Part;
//!
//! macro_rules! like {
//!     ($other:ty) => { use <$other as Part>::is_known_valid_and_utf8; };
//! }
//!
//! like!(u8);
//! ```
//!
//! Nor does it ask whether another part is known:
//!
//! ```compile_fail,E0061
//! use cojimuran::Part;
//!
//! 5u8.is_known_valid_and_utf8();
//! ```
//!
//! A part of the package cannot get other methods:
//!
//! ```compile_fail,E0117
//! use cojimuran::parts::{Hex, Part};
//!
//! #[derive(Clone, Copy)]
//! struct Mine;
//!
//! impl Part for Hex<Mine> {
//!     fn room(self) -> usize { 1 }
//!     fn write_to(self, buffer: &mut [u8]) -> usize { buffer[0] = 200; 1 }
//! }
//! ```
//!
//! A radix in a type is from 2 to 36:
//!
//! ```compile_fail,E0080
//! use cojimuran::{InRadix, Part};
//!
//! InRadix::<37, _>(5u8).to_str(&mut [0; 8]);
//! ```
//!
//! And no type of one's own is an integer type, whose digits a part of the package would write:
//!
//! ```compile_fail,E0277
//! #[derive(Clone, Copy)]
//! struct Mine;
//!
//! impl cojimuran::LexicalInteger for Mine {}
//! ```
//!
//! ```compile_fail,E0603
//! use cojimuran::sealed::Sealed;
//! ```
//!
//! A later version may have a further error, so a `match` of the errors needs an arm for others:
//!
//! ```compile_fail,E0004
//! use cojimuran::Error;
//!
//! fn name(error: Error) -> &'static str {
//!     match error {
//!         Error::InvalidMantissaRadix(_) | Error::InvalidExponentRadix(_) => "radix",
//!         Error::InvalidGroupSize(_) | Error::InvalidGroupMark(_) => "groups",
//!     }
//! }
//! ```
