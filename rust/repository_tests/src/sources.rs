//! The sources of the package `cojimuran`, and the search for names in them, as whole words: `Hex` is not in
//! `FullHex(5)`.

use std::fs;
use std::path::{Path, PathBuf};

/// Returns the text of each source of the package.
pub fn texts_of_cojimuran() -> Vec<String> {
    let paths = paths_in(&Path::new(env!("CARGO_MANIFEST_DIR")).join("../cojimuran/src"));
    paths.iter().map(|path| fs::read_to_string(path).unwrap()).collect()
}

/// Returns each file in a folder, and in the folders in it.
fn paths_in(folder: &Path) -> Vec<PathBuf> {
    let paths = fs::read_dir(folder).unwrap().map(|entry| entry.unwrap().path());
    paths.flat_map(|path| if path.is_dir() { paths_in(&path) } else { vec![path] }).collect()
}

/// Returns whether a text has a call of a function of this name, or makes a tuple struct of it.
pub fn has_call(text: &str, name: &str) -> bool {
    rests_after(text, name).any(|rest| rest.starts_with('(') || rest.starts_with("::<"))
}

/// Returns whether a text has this word.
pub fn has_word(text: &str, word: &str) -> bool {
    rests_after(text, word).any(|rest| !rest.starts_with(is_of_word))
}

/// Returns what follows the word in the text, wherever a word begins with it.
fn rests_after<'a>(text: &'a str, word: &'a str) -> impl Iterator<Item = &'a str> {
    let found = text.match_indices(word).filter(|(at, _)| !text[..*at].ends_with(is_of_word));
    found.map(|(at, _)| &text[at + word.len()..])
}

fn is_of_word(c: char) -> bool {
    c.is_alphanumeric() || c == '_'
}
