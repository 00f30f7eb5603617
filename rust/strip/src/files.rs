//! Reads, lays out and writes files.

use crate::tokens::lex;
use std::path::{Path, PathBuf};
use std::process::{Command, Stdio};
use std::{fs, io};

/// Returns the files with this extension in a folder of the repository and in the folders in it.
pub(crate) fn files_of(top: &Path, folder: &Path, extension: &str) -> Result<Vec<PathBuf>, String> {
    let mut found = Vec::new();
    for entry in fs::read_dir(top.join(folder)).map_err(|error| message(folder, error))? {
        let path = folder.join(entry.map_err(|error| message(folder, error))?.file_name());
        if top.join(&path).is_dir() {
            found.extend(files_of(top, &path, extension)?);
        } else if path.extension().is_some_and(|found| found == extension) {
            found.push(path);
        }
    }
    Ok(found)
}

pub(crate) fn read(path: &Path) -> Result<String, String> {
    fs::read_to_string(path).map_err(|error| message(path, error))
}

/// Writes a file, in a folder that may be new, unless it has this text.
pub(crate) fn write(file: &Path, text: &str) -> Result<(), String> {
    if fs::read_to_string(file).is_ok_and(|there| there == text) {
        return Ok(());
    }
    let folder = file.parent().unwrap_or(file);
    fs::create_dir_all(folder).and_then(|()| fs::write(file, text)).map_err(|error| message(file, error))
}

pub(crate) fn remove_file(path: &Path) -> Result<(), String> {
    fs::remove_file(path).map_err(|error| message(path, error))
}

fn message(path: &Path, error: io::Error) -> String {
    format!("{}: {error}", path.display())
}

/// Returns the text as rustfmt lays it out, or an error without rustfmt.
pub(crate) fn laid_out(text: &str, top: &Path) -> Result<String, String> {
    let mut rustfmt = Command::new("rustfmt");
    rustfmt.args(["--edition=2024", "--emit=stdout", "--quiet", "--config-path"]).arg(top.join("rust/cojimuran"));
    rustfmt.stdin(Stdio::piped()).stdout(Stdio::piped());
    let say = |error| format!("rustfmt, which lays out what is made (`rustup component add rustfmt`): {error}");
    let mut child = rustfmt.spawn().map_err(say)?;
    io::Write::write_all(&mut child.stdin.take().expect("a pipe"), text.as_bytes()).map_err(say)?;
    let output = child.wait_with_output().map_err(say)?;
    let text = String::from_utf8_lossy(&output.stdout).into_owned();
    if output.status.success() { Ok(text) } else { Err(format!("rustfmt cannot read what is made: {text}")) }
}

/// Returns a text without what a layout changes: the white space between tokens and around the lines of comments, and
/// the last comma before a bracket.
pub(crate) fn without_layout(text: &str) -> String {
    let Ok(tokens) = lex(text) else {
        return text.to_owned();
    };
    let mut parts = Vec::new();
    for token in &tokens {
        parts.extend(token.before.lines().map(str::trim));
        parts.extend([&*token.text, token.after.trim()]);
    }
    parts.retain(|part| !part.is_empty());
    let text = parts.join("\n");
    text.replace("\n,\n)", "\n)").replace("\n,\n]", "\n]").replace("\n,\n}", "\n}")
}
