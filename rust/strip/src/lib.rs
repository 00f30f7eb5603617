//! Makes the sources of the Rust packages from those of the crates of Rattle: `cargo run -p strip`. It needs rustfmt.
//!
//! A source is read as tokens, and each comment is kept with the token that it stands at. No rule looks at a comment,
//! so a comment goes to the package as it is, or is left out with what it stands at. `tokens` reads and prints,
//! `items` finds functions and their parts, and `repository` reads all crates. These are the steps:
//!
//! 1. When a file is read, `rules` writes what `replacements` lists otherwise, for example `prove!` as `assert!`.
//! 2. `left_out` leaves out items that only the prover reads, such as ghost items, laws, models and tactics.
//! 3. `counters` leaves out counters with all that passes them on, and calls of laws, which `laws` knows.
//! 4. `additions` writes attributes that a package needs and the crate does not have: `#[inline]` and `#[must_use]`.
//! 5. `left_out` leaves out contracts and imports of what is gone.
//! 6. `checks` refuses each word of Rattle that is left, and a function whose documentation says nothing of what it
//!    requires.
//!
//! `crates` has a `recipe` for each crate: what is made of it, and the names that the steps need to know, such as those
//! of laws. `attributes` has what step 4 writes. What no step knows is an error with the file and the line. A rule or a
//! listed name that is for nothing is an error too.

#![forbid(unsafe_code)]

mod additions;
mod attributes;
mod checks;
mod counters;
mod crates;
mod files;
mod items;
mod laws;
mod left_out;
mod recipe;
mod replacements;
mod repository;
mod rules;
mod tokens;

use crates::RECIPES;
use files::{files_of, laid_out, read, remove_file, without_layout, write};
use recipe::Recipe;
use repository::{File, Repository};
use rules::Rule;
use std::collections::BTreeMap;
use std::path::{Path, PathBuf};

/// The path and the text of files.
type Files = BTreeMap<PathBuf, String>;

/// How the first line of a made file begins.
const MADE: &str = "// Made by `strip` from ";

/// Writes all made files of the repository in a folder, and removes those of sources that are gone.
pub fn make(top: &Path) -> Result<(), String> {
    let files = committed_files(top)?;
    stale(top, &files)?.iter().try_for_each(|path| remove_file(&top.join(path)))?;
    files.into_iter().try_for_each(|(path, text)| write(&top.join(path), &text))
}

/// Returns an error that names each made file that is not what would be made now, and its first line that differs. What
/// only another version of rustfmt would lay out otherwise is no difference.
pub fn check(top: &Path) -> Result<(), String> {
    let files = committed_files(top)?;
    let is_gone = |path: PathBuf| format!("{}: its source is gone", path.display());
    let mut wrong: Vec<String> = stale(top, &files)?.into_iter().map(is_gone).collect();
    for (path, text) in files {
        let there = read(&top.join(&path)).unwrap_or_default();
        if without_layout(&there) != without_layout(&text) {
            let same = there.lines().zip(text.lines()).take_while(|(a, b)| a == b).count();
            wrong.push(format!("{}:{}: it is not what is made now", path.display(), same + 1));
        }
    }
    if wrong.is_empty() { Ok(()) } else { Err(wrong.join("\n")) }
}

/// Makes the files of a package that are not committed, in the folder of what its build script makes. The documentation
/// of a root is a file of its own, because a file that is included cannot have that of the one that includes it.
pub fn make_built(top: &Path, package: &str, folder: &Path) -> Result<(), String> {
    let repository = Repository::read(top, RECIPES, Rule::all())?;
    for (path, text) in files_of_recipes(&repository, |recipe| recipe.package == package)? {
        let (file, is_root) = (folder.join(&path), path.ends_with("lib.rs"));
        let is_documentation = |line: &&str| is_root && line.starts_with("//!");
        let (documentation, code): (Vec<&str>, Vec<&str>) = text.lines().partition(is_documentation);
        write(&file, &code.join("\n"))?;
        if is_root {
            write(&file.with_extension("md"), &documentation.join("\n").replace("//! ", "").replace("//!", ""))?;
        }
    }
    for recipe in RECIPES.iter().filter(|recipe| recipe.package == package) {
        println!("cargo::rerun-if-changed={}", top.join(recipe.folder_of_crate()).display());
    }
    Ok(())
}

/// Returns each file that is made of the repository in this folder and is committed.
fn committed_files(top: &Path) -> Result<Files, String> {
    let files = files_of_recipes(&Repository::read(top, RECIPES, Rule::all())?, Recipe::is_committed)?;
    files.into_iter().map(|(path, text)| Ok((path, laid_out(&text, top)?))).collect()
}

/// Returns the made files that are there, although their sources are gone.
fn stale(top: &Path, made: &Files) -> Result<Vec<PathBuf>, String> {
    let mut there = files_of(top, Path::new("rust/cojimuran/src"), "rs")?;
    there.extend(files_of(top, Path::new("rust/lexical_c/src"), "rs")?);
    there.retain(|path| !made.contains_key(path) && read(&top.join(path)).is_ok_and(|text| text.starts_with(MADE)));
    Ok(there)
}

/// Returns each file that these recipes make. Its first line says what it is made of.
fn files_of_recipes(repository: &Repository, is_asked: impl Fn(&Recipe) -> bool) -> Result<Files, String> {
    let mut files = Files::new();
    for file in repository.files.iter().filter(|file| is_asked(file.recipe)) {
        if let Some(path) = file.recipe.path_of_made(&file.path) {
            let from = file.path_in_repository().display().to_string();
            let code = translated(file, repository).map_err(|what| format!("{from}:{what}"))?;
            files.insert(path, format!("{MADE}{from}. Edit that file, not this one.\n\n{code}"));
        }
    }
    Ok(files)
}

/// Returns the code that is made of a file, to whose tokens the rules are applied. An error begins with the line.
fn translated(file: &File, Repository { laws, .. }: &Repository) -> Result<String, String> {
    let mut code = file.tokens.clone();
    left_out::leave_out_items(&mut code, &file.recipe.names_of_modules_left_out(), laws);
    counters::leave_out_counters(&mut code, laws);
    if file.recipe.is_documented() {
        checks::check_that_conditions_are_documented(&code)?;
    }
    additions::add_attributes(&mut code, file);
    left_out::leave_out_contracts(&mut code);
    left_out::leave_out_imports(&mut code, file, laws);
    checks::check_that_each_function_does_something(&code)?;
    checks::check_that_nothing_of_rattle_is_left(&code, laws)?;
    Ok(tokens::print(&code).trim().to_owned() + "\n")
}

#[cfg(test)]
mod tests;
