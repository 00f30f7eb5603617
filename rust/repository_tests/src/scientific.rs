//! `Scientific` against `{:e}` of the standard library, which proved code cannot call.

use cojimuran::{Part, Scientific, ToLexical};
use std::fmt::{Display, LowerExp};

/// Returns a number times 10^`exponent` as a part, after its text is compared with that of `{:e}`. Unless the exponent
/// is 0, the number has at most 15 digits, which are then the shortest digits of the float.
///
/// The test `numbers_as_rust_writes_them` of `crates/uses` compares sums of texts with constants. In what `strip` makes
/// of that test, this call makes each part. So the constants, which the test also has in Rattle, are sums of what Rust
/// writes.
pub fn as_rust<N: ToLexical + Display + LowerExp>(number: N, exponent: i32) -> Scientific<N> {
    let text = format!("{number}e{exponent}");
    let expected = if exponent == 0 { format!("{number:e}") } else { format!("{:e}", text.parse::<f64>().unwrap()) };
    let part = Scientific(number, exponent);
    assert_eq!(part.to_str(&mut [0; 40]), expected);
    part
}
