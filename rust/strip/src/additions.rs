//! Adds attributes of functions and types. Without `#[inline]` rustc would inline few functions of a package into
//! another one.

use crate::items::{Function, functions, start_of_item};
use crate::repository::File;
use crate::tokens::{Token, closing, has_mutable_reference, words};

/// Adds them to all functions and types of a file.
pub(crate) fn add_attributes(tokens: &mut [Token], file: &File) {
    for function in functions(tokens) {
        let mut lines = inlining(tokens, &function, file).to_owned();
        if file.recipe.is_documented() && function.is_for_users(tokens) && must_be_used(tokens, &function) {
            lines.insert_str(0, "#[must_use]\n");
        }
        insert_lines(&mut tokens[function.visibility], &lines);
    }
    for at in 0..tokens.len() {
        if tokens[at].is_in(&["struct", "enum", "trait"]) {
            let lines = file.recipe.lines_to_add(|attributes| attributes.are_for_type(&tokens[at + 1].text));
            let first = start_of_item(tokens, at);
            insert_lines(&mut tokens[first], lines.unwrap_or_default());
        }
    }
}

/// Returns the attributes for inlining. Tests need none, and a function with an ABI has attributes of its own.
fn inlining(tokens: &[Token], function: &Function, file: &File) -> &'static str {
    let is_exported = tokens[function.visibility..function.at].iter().any(|token| *token == "extern");
    if tokens[function.body] != "{" || file.recipe.is_test() || is_exported {
        return "";
    }
    let name = function.name(tokens);
    file.recipe.lines_to_add(|attributes| attributes.are_for_function(name, &file.path)).unwrap_or("#[inline]")
}

/// Returns whether the result of a function is all that it is called for.
fn must_be_used(tokens: &[Token], function: &Function) -> bool {
    let result = words(function.result(tokens));
    let parameters = &tokens[function.parameters..closing(tokens, function.parameters)];
    result.starts_with("->") && !result.contains("Result <") && !has_mutable_reference(parameters)
}

/// Inserts lines before a token, after the comments before it, and indents them as the token is.
fn insert_lines(token: &mut Token, lines: &str) {
    let indentation = token.before[token.before.trim_end_matches(' ').len()..].to_owned();
    for line in lines.lines() {
        token.before += &format!("{line}\n{indentation}");
    }
}
