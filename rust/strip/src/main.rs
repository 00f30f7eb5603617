//! Makes the sources of the Rust packages: `cargo run -p strip`. With `-- --check` it changes nothing, and fails with
//! the name of each made file that is out of date, its first line that differs, and each whose source is gone. With
//! `-- --built PACKAGE FOLDER` it makes in the folder what is made when cargo builds that package.

use std::path::Path;
use std::process::ExitCode;

fn main() -> ExitCode {
    let top = Path::new(env!("CARGO_MANIFEST_DIR")).join("../..");
    let words: Vec<String> = std::env::args().skip(1).collect();
    let result = match &*words.iter().map(String::as_str).collect::<Vec<_>>() {
        [] => strip::make(&top),
        ["--check"] => strip::check(&top),
        ["--built", package, folder] => strip::make_built(&top, package, Path::new(folder)),
        _ => Err("use: cargo run -p strip [-- --check | -- --built PACKAGE FOLDER]".to_owned()),
    };
    if let Err(message) = &result {
        eprintln!("{message}");
    }
    ExitCode::from(u8::from(result.is_err()))
}
