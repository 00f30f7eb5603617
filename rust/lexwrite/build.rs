//! Makes the lines: the crate `lexical_lines`, in plain Rust.

use std::path::Path;

fn main() -> Result<(), String> {
    let folder = std::env::var("OUT_DIR").map_err(|error| error.to_string())?;
    strip::make_built(Path::new("../.."), "lexwrite", Path::new(&folder))
}
