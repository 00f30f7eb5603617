//! Leaves out items that only Rattle reads: what is marked as ghost, tactics, models, laws, and modules of them; then
//! contracts, and imports of what is gone.

use crate::counters::COUNTERS;
use crate::items::{
    Names, function_at, functions, remove_and_keep_comment, remove_each, remove_with_comment, start_of_item,
    start_with_attributes, with_comma,
};
use crate::repository::File;
use crate::tokens::{Token, closing, find, words};
use std::ops::Range;

/// Leaves out the items, with the modules of these names. Contracts stay until they have been read.
pub(crate) fn leave_out_items(tokens: &mut Vec<Token>, modules: &[&str], laws: &Names) {
    remove_each(tokens, remove_with_comment, |tokens, at| item_left_out(tokens, at, modules, laws));
    remove_each(tokens, remove_and_keep_comment, tactic);
}

/// Returns where the attribute `#[tactic(..)]` is that begins at an index.
fn tactic(tokens: &[Token], at: usize) -> Option<Range<usize>> {
    let is_tactic = tokens[at] == "#" && tokens[at + 1] == "[" && tokens[at + 2] == "tactic";
    is_tactic.then(|| at..closing(tokens, at + 1) + 1)
}

/// Leaves out the clauses of all functions.
pub(crate) fn leave_out_contracts(tokens: &mut Vec<Token>) {
    // From the last one: so the places of the others stay as they are.
    for function in functions(tokens).into_iter().rev() {
        tokens.drain(function.clauses);
    }
}

/// Returns where the item is that has its first word at an index, if it is left out.
fn item_left_out(tokens: &[Token], at: usize, modules: &[&str], laws: &Names) -> Option<Range<usize>> {
    let next = tokens.get(at + 1).map_or("", |token| &token.text);
    let end = match &*tokens[at].text {
        "ghost" => {
            let end = find(tokens, at, &[";", ","]);
            end + usize::from(tokens[end].is_in(&[";", ","]))
        }
        "mod" if modules.contains(&next) => find(tokens, at, &[";"]) + 1,
        "const" if laws.contains(next) => find(tokens, at, &[";"]) + 1,
        "fn" if laws.contains(next) => function_at(tokens, at)?.whole(tokens).end,
        "impl" if words(&tokens[at..find(tokens, at, &["{"])]).contains(" Model for ") => {
            closing(tokens, find(tokens, at, &["{"])) + 1
        }
        "#" if next == "!" && tokens[at + 3] == "tactic" => closing(tokens, at + 2) + 1,
        _ => return None,
    };
    Some(start_with_attributes(tokens, at)..end)
}

/// Leaves out imports of what is left out, and of what only that has named. Tests may import what they do not use.
pub(crate) fn leave_out_imports(tokens: &mut Vec<Token>, file: &File, laws: &Names) {
    let used = words_outside_imports(tokens);
    let used_before = if file.recipe.is_test() { Names::new() } else { words_outside_imports(&file.tokens) };
    let is_gone = |name: &str| name == "Model" || COUNTERS.contains(&name) || laws.contains(name);
    let is_unused = |name: &str| used_before.contains(name) && !used.contains(name);
    for at in (0..tokens.len()).rev().filter(|at| tokens[*at] == "use").collect::<Vec<_>>() {
        let is_private = start_of_item(tokens, at) == at;
        leave_out_names(tokens, at, |name| is_gone(name) || is_private && is_unused(name));
        tidy_import(tokens, at);
    }
}

/// Leaves out names of the import that begins at an index, and each that is there a second time, since
/// `use a::{b, b_counted}` has become `use a::{b, b}`.
fn leave_out_names(tokens: &mut Vec<Token>, at: usize, is_left_out: impl Fn(&str) -> bool) {
    for name in (at..find(tokens, at, &[";"])).rev() {
        let text = &tokens[name].text;
        let is_name = tokens[name].is_word() && tokens[name + 1].is_in(&[",", "}", ";"]);
        let is_again = (at..name).any(|other| tokens[other].text == *text && tokens[other + 1] == ",");
        if is_name && (is_left_out(text) || is_again) {
            let before = (at..name).rev().find(|before| tokens[*before].is_in(&["{", ","]));
            let name = with_comma(tokens, before.unwrap_or(at) + 1..name + 1);
            remove_with_comment(tokens, name);
        }
    }
}

/// Leaves out the import that begins at an index if it has no name, and its brackets if it has one.
fn tidy_import(tokens: &mut Vec<Token>, at: usize) {
    let end = find(tokens, at, &[";"]);
    let import = words(&tokens[at..end]);
    if import == "use" || import.ends_with("{ }") {
        remove_with_comment(tokens, start_with_attributes(tokens, at)..end + 1);
    } else if import.ends_with(" }") && tokens[end - 3] == "{" && tokens[end - 2] != "self" {
        tokens.remove(end - 1);
        tokens.remove(end - 3);
    }
}

fn words_outside_imports(tokens: &[Token]) -> Names {
    let mut others = tokens.to_vec();
    let import = |tokens: &[Token], at: usize| (tokens[at] == "use").then(|| at..find(tokens, at, &[";"]));
    remove_each(&mut others, remove_with_comment, import);
    others.into_iter().map(|token| token.text).collect()
}
