//! Finds the items of a source by their first words and their brackets, and removes tokens.

use crate::tokens::{Token, closing, find, opening};
use std::collections::BTreeSet;
use std::ops::Range;

/// Names of items or variables.
pub(crate) type Names = BTreeSet<String>;

/// Where the parts of a function are, as indices of tokens.
pub(crate) struct Function {
    /// Its documentation and its attributes, or what it has first.
    pub first: usize,
    /// Its visibility, or what it has first after its attributes.
    pub visibility: usize,
    /// The word `fn`. The name is after it.
    pub at: usize,
    /// The bracket before its parameters.
    pub parameters: usize,
    /// All `requires` and `ensures`.
    pub clauses: Range<usize>,
    /// The bracket of its body, or the `;` in its place.
    pub body: usize,
}

impl Function {
    pub fn name<'a>(&self, tokens: &'a [Token]) -> &'a str {
        &tokens[self.at + 1].text
    }

    /// Returns what is between the brackets of its body, or nothing at the `;`.
    pub fn inside(&self, tokens: &[Token]) -> Range<usize> {
        let end = closing(tokens, self.body);
        (self.body + 1).min(end)..end
    }

    /// Returns all of it, with its documentation.
    pub fn whole(&self, tokens: &[Token]) -> Range<usize> {
        self.first..closing(tokens, self.body) + 1
    }

    /// Returns what is between its parameters and its clauses: the type of its result, and what `where` says.
    pub fn result<'a>(&self, tokens: &'a [Token]) -> &'a [Token] {
        &tokens[closing(tokens, self.parameters) + 1..self.clauses.start]
    }

    /// Returns whether users can call it: whether it is public, or a method that a trait declares.
    pub fn is_for_users(&self, tokens: &[Token]) -> bool {
        let is_public = tokens[self.visibility] == "pub" && tokens[self.visibility + 1] != "(";
        let mut traits = (0..self.at).filter(|at| tokens[*at] == "trait");
        is_public || traits.any(|at| closing(tokens, find(tokens, at, &["{"])) > self.at)
    }
}

/// Returns all functions, in their order.
pub(crate) fn functions(tokens: &[Token]) -> Vec<Function> {
    (0..tokens.len()).filter_map(|at| function_at(tokens, at)).collect()
}

/// Returns the function whose word `fn` is at an index.
pub(crate) fn function_at(tokens: &[Token], at: usize) -> Option<Function> {
    if tokens[at] != "fn" || !tokens[at + 1].is_word() {
        return None;
    }
    let parameters = after_generics(tokens, at + 2);
    let clauses = find(tokens, closing(tokens, parameters) + 1, &["requires", "ensures", "{", ";"]);
    let mut body = clauses;
    while tokens[body].is_in(&["requires", "ensures"]) {
        body = closing(tokens, find(tokens, body, &["{"])) + 1;
    }
    let (first, visibility) = (start_with_attributes(tokens, at), start_of_item(tokens, at));
    Some(Function { first, visibility, at, parameters, clauses: clauses..body, body })
}

/// Returns the names of all functions and constants.
pub(crate) fn declared_names(tokens: &[Token]) -> impl Iterator<Item = &String> {
    let is_name = |pair: &&[Token]| pair[0].is_in(&["fn", "const"]) && pair[1].is_word() && pair[1] != "fn";
    tokens.windows(2).filter(is_name).map(|pair| &pair[1].text)
}

/// Returns the index after `<..>`, if that is here.
pub(crate) fn after_generics(tokens: &[Token], mut at: usize) -> usize {
    let mut depth = 0;
    loop {
        depth += i32::from(tokens[at] == "<") - i32::from(tokens[at] == ">");
        if depth == 0 {
            return at + usize::from(tokens[at] == ">");
        }
        at += 1;
    }
}

/// Returns the index after `::<..>`, if that is here.
pub(crate) fn after_type_arguments(tokens: &[Token], at: usize) -> usize {
    let is_here = tokens[at] == "::" && tokens[at + 1] == "<";
    if is_here { after_generics(tokens, at + 1) } else { at }
}

/// Returns the index of the first token of the item whose word is at an index, after its attributes.
pub(crate) fn start_of_item(tokens: &[Token], mut at: usize) -> usize {
    while at > 0 {
        at = match &*tokens[at - 1].text {
            "pub" | "final" | "const" | "unsafe" | "extern" | "\"C\"" => at - 1,
            ")" if tokens[opening(tokens, at - 1) - 1] == "pub" => opening(tokens, at - 1) - 1,
            _ => break,
        };
    }
    at
}

/// Returns the index of the first token of the item whose word is at an index: of its documentation or its attributes.
pub(crate) fn start_with_attributes(tokens: &[Token], at: usize) -> usize {
    let mut at = start_of_item(tokens, at);
    while at > 0 {
        at = match &*tokens[at - 1].text {
            "]" if tokens[opening(tokens, at - 1) - 1] == "#" => opening(tokens, at - 1) - 1,
            text if text.starts_with("///") => at - 1,
            _ => break,
        };
    }
    at
}

/// Returns the elements of a list in brackets, each without its comma.
pub(crate) fn elements(tokens: &[Token], open: usize) -> Vec<Range<usize>> {
    let (end, mut from, mut found) = (closing(tokens, open), open + 1, Vec::new());
    while from < end {
        let comma = find(tokens, from, &[","]);
        found.push(from..comma);
        from = comma + 1;
    }
    found
}

/// Removes tokens with the comment directly before them, which speaks of them. A comment with an empty line after it
/// stays.
pub(crate) fn remove_with_comment(tokens: &mut Vec<Token>, range: Range<usize>) {
    let kept = tokens[range.start].before.rsplit_once("\n\n").map(|(kept, _)| format!("{kept}\n\n"));
    tokens.drain(range.clone());
    if let Some(kept) = kept {
        let next = &mut tokens[range.start].before;
        *next = kept + next.trim_start();
    }
}

/// Removes tokens, and keeps the comments before them, which speak of what follows.
pub(crate) fn remove_and_keep_comment(tokens: &mut Vec<Token>, range: Range<usize>) {
    let before = tokens[range.start].before.clone();
    tokens.drain(range.clone());
    let next = &mut tokens[range.start].before;
    if before.contains('\n') {
        *next = before + next.trim_start();
    }
}

/// Removes each range that is found for an index.
pub(crate) fn remove_each(
    tokens: &mut Vec<Token>,
    remove: impl Fn(&mut Vec<Token>, Range<usize>),
    range_at: impl Fn(&[Token], usize) -> Option<Range<usize>>,
) {
    let mut at = 0;
    while at < tokens.len() {
        if let Some(range) = range_at(tokens, at) {
            at = range.start;
            remove(tokens, range);
        } else {
            at += 1;
        }
    }
}

/// Returns where an element of a list is, with the comma that goes if the element goes.
pub(crate) fn with_comma(tokens: &[Token], element: Range<usize>) -> Range<usize> {
    let is_before_comma = tokens[element.end] == ",";
    let is_after_comma = tokens[element.start - 1] == ",";
    element.start - usize::from(is_after_comma && !is_before_comma)..element.end + usize::from(is_before_comma)
}
