//! Each part that the package exports has a row in the table `src/parts.rs`.

use repository_tests::sources::has_call;

#[test]
fn each_part_has_a_row() {
    let (exports, table) = (include_str!("../../cojimuran/src/parts.rs"), include_str!("../src/parts.rs"));
    // A line is `pub use numbers::digits::{Digits, InRadix};`.
    let exports = exports.lines().filter_map(|line| line.strip_prefix("pub use "));
    let names = exports.flat_map(|line| line.split(|c: char| !c.is_alphanumeric()));
    let parts: Vec<&str> = names.filter(|name| name.starts_with(char::is_uppercase)).collect();
    let has_row = |name: &str| ["Part", "Buffer", "Show", "Shown"].contains(&name) || has_call(table, name);
    let missing: Vec<&&str> = parts.iter().filter(|name| !has_row(name)).collect();
    assert!(missing.is_empty(), "src/parts.rs has no row for {missing:?}");
    assert!(parts.len() > 20);
}
