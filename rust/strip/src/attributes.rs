//! Attributes that a package needs, and a crate does not have. `crates` says what has which.

use crate::recipe::{List, has};

/// Attributes, and what has them. rustc checks that they are right.
pub(crate) struct Attributes {
    /// One or more lines. They take the place of the `#[inline]` that a function has otherwise.
    pub lines: &'static str,
    /// Structs, enums and traits.
    pub types: List,
    /// Functions: `NAME` in any file, and `FILE:NAME` in one.
    pub functions: List,
    /// Files, all functions of which have them.
    pub files: List,
}

impl Attributes {
    pub fn are_for_type(&self, name: &str) -> bool {
        has(self.types, name)
    }

    pub fn are_for_function(&self, name: &str, file: &str) -> bool {
        has(self.functions, name) || has(self.functions, &format!("{file}:{name}")) || has(self.files, file)
    }
}

/// Attributes that nothing has.
pub(crate) const NONE: Attributes = Attributes { lines: "", types: "", functions: "", files: "" };

/// For functions that must be in the code of a caller.
pub(crate) const ALWAYS: Attributes = Attributes { lines: "#[inline(always)]", ..NONE };

/// For functions whose panics name the line of a caller.
pub(crate) const TRACKED: Attributes = Attributes { lines: "#[inline]\n#[track_caller]", ..NONE };

/// For functions that must be in the code of a caller, and whose panics name its line.
pub(crate) const ALWAYS_TRACKED: Attributes = Attributes { lines: "#[inline(always)]\n#[track_caller]", ..NONE };

/// For functions that a caller calls, so their code is there once.
pub(crate) const NEVER: Attributes = Attributes { lines: "#[inline(never)]", ..NONE };

/// What rustc says of a type that does not implement a trait. Rattle does not know such attributes.
pub(crate) const NO_INTEGER: &str = r#"#[diagnostic::on_unimplemented(
message = "`{Self}` is not an integer type that this crate writes",
note = "it writes `u8` to `u64`, `usize`, `i8` to `i64` and `isize`",
note = "in a line `Displayed(&value)` writes another value with `Display`")]"#;
pub(crate) const NOT_UNSIGNED: &str = r#"#[diagnostic::on_unimplemented(
message = "`{Self}` is not an unsigned integer type that this crate writes",
note = "a literal needs a type, such as `255u8`; a signed number in a radix is written by `Formatted`, one with \
    leading zeros by `ZeroPadded`, and one of 128 bits by `Displayed`")]"#;
pub(crate) const NO_PART: &str = r#"#[diagnostic::on_unimplemented(
message = "`{Self}` is not a part",
note = "pass a `String` as `string.as_str()`, a list as `Joined(&list, separator)`, and bytes as `Bytes(bytes)`",
note = "pass another value with `Display` as `Displayed(&value)`, and one with `Debug` by `format_args!` in it",
note = "a tuple has 2 to 12 members; a part of your own needs `impl Part`")]"#;
pub(crate) const NO_SHOW: &str = r#"#[diagnostic::on_unimplemented(
message = "`{Self}` is not a part with `Show`",
note = "pass a `String` as `string.as_str()`, a list as `Joined(&list, separator)`, and bytes as `Bytes(bytes)`",
note = "pass another value with `Display` as `Displayed(&value)`, and one with `Debug` by `format_args!` in it",
note = "a tuple has 2 to 12 members; a part of your own needs `impl Part` and `impl Show`")]"#;
