//! Leaves out counters, and calls of laws.
//!
//! A counter is a parameter, a variable or a field in which a function records what it does, for example each turn of a
//! loop. Only contracts read it, so no result depends on it. `COUNTERS` has its name and its type. A law is a function
//! that only proves something. What else names a counter or calls a law stays, and `checks` refuses it.

use crate::items::{
    Function, Names, elements, functions, remove_and_keep_comment, remove_each, remove_with_comment, with_comma,
};
use crate::laws::is_for_proofs;
use crate::tokens::{Token, find, opening, words};
use std::ops::Range;

/// The types of counters, and the names that all variables, parameters and fields of these types have.
pub(crate) const COUNTERS: [&str; 5] = ["Turns", "Trace", "turns", "loop_turns", "trace"];

/// The ending of the name of a function with a counter.
const COUNTED: &str = "_counted";

/// Leaves out all counters and calls of laws of a file. Each step has its example above it.
pub(crate) fn leave_out_counters(tokens: &mut Vec<Token>, laws: &Names) {
    // `if n > 0 { turns.tick(n); } n` becomes `if n > 0 { } n`, and that becomes `n`.
    remove_each(tokens, remove_with_comment, |tokens, at| statement_for_proofs(tokens, at, laws));
    remove_each(tokens, remove_with_comment, empty_if);
    // `let half = n / 2; turns.tick(half); half }` has become `let half = n / 2; half }`, and becomes `n / 2 }`.
    remove_each(tokens, keep_value, binding);
    // `f(n, &mut Turns::new())` becomes `f(n)`.
    remove_each(tokens, remove_with_comment, counter);
    // `fn f(n: u8) { f_counted(n) } fn f_counted(n: u8) { n }` becomes `fn f(n: u8) { n }`.
    merge_counted(tokens);
}

/// Returns where the statement is whose `;` is at an index, if it only calls a law or records in a counter.
fn statement_for_proofs(tokens: &[Token], at: usize, laws: &Names) -> Option<Range<usize>> {
    let start = (tokens[at] == ";").then(|| start_of_statement(tokens, at))?;
    is_for_proofs(&tokens[start..at], laws).then_some(start..at + 1)
}

/// Returns where the statement begins that ends at an index.
fn start_of_statement(tokens: &[Token], mut at: usize) -> usize {
    while at > 0 && !tokens[at - 1].is_in(&["{", "}", ";"]) {
        at = if tokens[at - 1].is_in(&[")", "]"]) { opening(tokens, at - 1) } else { at - 1 };
    }
    at
}

/// Returns where the `if` is whose last bracket is at an index, if it is empty and its condition calls nothing.
fn empty_if(tokens: &[Token], at: usize) -> Option<Range<usize>> {
    let start = (tokens[at] == "}" && tokens[at - 1] == "{").then(|| start_of_statement(tokens, at - 1))?;
    let head = words(&tokens[start..at - 1]);
    (head.starts_with("if ") && !head.contains('(') && tokens[at + 1] != "else").then_some(start..at + 1)
}

/// Returns where `let NAME = VALUE; NAME` is before a `}`, if that begins at an index.
fn binding(tokens: &[Token], at: usize) -> Option<Range<usize>> {
    let end = (tokens[at] == "let" && tokens[at + 2] == "=").then(|| find(tokens, at, &[";"]))?;
    (words(&tokens[end..end + 3]) == format!("; {} }}", tokens[at + 1].text)).then_some(at..end + 2)
}

/// Makes `VALUE` of `let NAME = VALUE; NAME`.
fn keep_value(tokens: &mut Vec<Token>, binding: Range<usize>) {
    remove_with_comment(tokens, binding.end - 2..binding.end);
    remove_and_keep_comment(tokens, binding.start..binding.start + 3);
}

/// Returns where the parameter, argument or field is that begins at an index, with a comma, if it is a counter.
fn counter(tokens: &[Token], at: usize) -> Option<Range<usize>> {
    let element = (at > 0 && tokens[at - 1].is_in(&["(", "{", ","])).then(|| at..find(tokens, at, &[","]))?;
    is_counter(&tokens[element.clone()]).then(|| with_comma(tokens, element))
}

/// Returns whether an element of a list is a counter: `turns`, `self.trace`, `&mut Turns::new()`, `turns: &mut Turns`.
fn is_counter(element: &[Token]) -> bool {
    let name = element.iter().position(|token| !token.is_in(&["pub", "&", "mut", "self", "."]));
    name.is_some_and(|at| {
        let rest = words(&element[at + 1..]);
        element[at].is_in(&COUNTERS) && (rest.is_empty() || rest.starts_with(": ") || rest == ":: new ( )")
    })
}

/// Gives each function `NAME_counted`, whose counter is left out, the name `NAME`. If there is a function `NAME` that
/// does nothing but to call it, one function is made of the two.
fn merge_counted(tokens: &mut Vec<Token>) {
    let plain_name = |each: &Function| each.name(tokens).strip_suffix(COUNTED).map(str::to_owned);
    let names: Names = functions(tokens).iter().filter_map(plain_name).collect();
    for token in tokens.iter_mut().filter(|token| token.is_word() && token.text.ends_with(COUNTED)) {
        token.text.truncate(token.text.len() - COUNTED.len());
    }
    for name in names {
        let named = functions(tokens).into_iter().filter(|each| each.name(tokens) == name);
        let (callers, others): (Vec<_>, Vec<_>) = named.partition(|each| only_calls_its_namesake(tokens, each));
        if let ([caller], [called, ..]) = (&*callers, &*others) {
            make_one(tokens, caller, called);
        }
    }
}

/// Returns whether a function does nothing but to call one of its own name, with its own parameters.
fn only_calls_its_namesake(tokens: &[Token], function: &Function) -> bool {
    let parameters = elements(tokens, function.parameters).into_iter().map(|range| &*tokens[range.start].text);
    let parameters: Vec<&str> = parameters.filter(|parameter| *parameter != "self").collect();
    let call = format!("{} ( {} )", function.name(tokens), parameters.join(" , ")).replace("  ", " ");
    words(&tokens[function.inside(tokens)]).trim_start_matches("self . ") == call
}

/// Gives a function the body of the one that it calls, or its `;` if a trait only declares that. The other one goes.
fn make_one(tokens: &mut Vec<Token>, caller: &Function, called: &Function) {
    let (whole, place) = (called.whole(tokens), caller.body..caller.whole(tokens).end);
    let body = tokens[called.body..whole.end].to_vec();
    // What is later in the file comes first: so the place of the other stays as it is.
    if whole.start < place.start {
        tokens.splice(place, body);
        remove_with_comment(tokens, whole);
    } else {
        remove_with_comment(tokens, whole);
        tokens.splice(place, body);
    }
}
