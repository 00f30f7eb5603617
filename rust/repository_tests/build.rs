//! Makes the tests of the repository: the callers and the tests of its crates, in plain Rust.

use std::path::Path;

fn main() -> Result<(), String> {
    let folder = std::env::var("OUT_DIR").map_err(|error| error.to_string())?;
    strip::make_built(Path::new("../.."), "repository_tests", Path::new(&folder))
}
