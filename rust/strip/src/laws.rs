//! Laws, which are functions that only prove something, and statements that only call one or record in a counter.

use crate::counters::COUNTERS;
use crate::items::{Function, Names, after_type_arguments, elements};
use crate::tokens::{Token, has_mutable_reference, opening};

/// The functions that the arguments of laws call. They change nothing, so they are left out with the call of the law.
const WITHOUT_EFFECT: [&str; 6] = ["as_bytes", "as_u64", "exponent_radix", "from", "from_radix", "mantissa_radix"];

/// What a statement that is only a call does not have.
const EFFECTS: [&str; 5] = ["?", "!", "=", "{", "return"];

/// Returns whether two tokens are of a macro, such as `prove!` or `unreachable!`, or end the process.
fn may_end_call(pair: &[Token]) -> bool {
    pair[0].is_word() && pair[1] == "!" || pair[0].is_in(&["exit", "abort"])
}

/// Returns what a function does that no law does, or `None`.
pub(crate) fn effect(tokens: &[Token], function: &Function) -> Option<&'static str> {
    let is_counter = |element: &[Token]| element.iter().any(|token| token.is_in(&COUNTERS));
    let changes = |element: &[Token]| has_mutable_reference(element) && !is_counter(element);
    if !function.result(tokens).is_empty() {
        Some("returns something")
    } else if tokens[function.inside(tokens)].windows(2).any(may_end_call) {
        Some("asserts something")
    } else if elements(tokens, function.parameters).iter().any(|each| changes(&tokens[each.clone()])) {
        Some("changes something")
    } else {
        None
    }
}

/// Returns whether a statement, without its `;`, does nothing but to call a law or a method of a counter.
pub(crate) fn is_for_proofs(statement: &[Token], laws: &Names) -> bool {
    let Some(name) = callee(statement) else { return false };
    let is_method_of_counter = name > 1 && statement[name - 1] == "." && statement[name - 2].is_in(&COUNTERS);
    let is_for_proofs = is_method_of_counter || laws.contains(&statement[name].text);
    is_for_proofs && !(0..statement.len()).any(|at| has_effect(statement, at, name))
}

/// Returns the index of the name of what a statement calls, if it is only a call: of `law` in `module::law::<u8>(x)`.
fn callee(statement: &[Token]) -> Option<usize> {
    let is_call = *statement.first()? != "." && *statement.last()? == ")";
    let arguments = opening(statement, if is_call { statement.len() - 1 } else { return None });
    (0..arguments).find(|at| after_type_arguments(statement, at + 1) == arguments)
}

/// Returns whether the token at an index does more than the call of the name at the other index.
fn has_effect(statement: &[Token], at: usize, name: usize) -> bool {
    statement[at].is_in(&EFFECTS) || changes_a_value(statement, at) || at != name && calls_a_function(statement, at)
}

/// Returns whether `mut` is at an index, for something that is no counter.
fn changes_a_value(statement: &[Token], at: usize) -> bool {
    let named = statement[at + 1..].iter().find(|token| !token.is_in(&["self", "."]));
    statement[at] == "mut" && !named.is_some_and(|token| token.is_in(&COUNTERS))
}

/// Returns whether a call of a function that may change something is at an index.
fn calls_a_function(statement: &[Token], at: usize) -> bool {
    statement[at].is_word() && statement[at + 1] == "(" && !statement[at].is_in(&WITHOUT_EFFECT)
}
