//! What is refused in the code that is made: what only Rattle has, laws that are not listed, and conditions of which
//! the documentation says nothing.

use crate::counters::COUNTERS;
use crate::items::{Function, Names, functions};
use crate::laws::effect;
use crate::tokens::{Token, words};

/// What only Rattle has.
const OF_RATTLE: [&str; 7] = ["requires", "ensures", "tactic", "prove", "final", "Model", "Drop"];

/// Returns an error if code has what only Rattle has, or a call of a law.
pub(crate) fn check_that_nothing_of_rattle_is_left(tokens: &[Token], laws: &Names) -> Result<(), String> {
    let is_call_of_law = |pair: &[Token]| laws.contains(&pair[0].text) && pair[1] == "(";
    let is_left = |pair: &&[Token]| pair[0].is_in(&OF_RATTLE) || pair[0].is_in(&COUNTERS) || is_call_of_law(pair);
    let found = tokens.windows(2).find(is_left);
    found.map_or(Ok(()), |pair| Err(format!("{}: only Rattle has `{}`", pair[0].line, pair[0].text)))
}

/// Returns an error if a function does nothing, because that is a law.
pub(crate) fn check_that_each_function_does_something(tokens: &[Token]) -> Result<(), String> {
    let is_empty = |each: &Function| tokens[each.body] == "{" && each.inside(tokens).is_empty();
    let found = functions(tokens).into_iter().find(|each| is_empty(each) && effect(tokens, each).is_none());
    found.map_or(Ok(()), |law| {
        let (line, name) = (tokens[law.at].line, law.name(tokens));
        Err(format!("{line}: {name} does nothing: is it a law that `crates.rs` must list?"))
    })
}

/// Returns an error if a function for users requires something, and no section of its documentation says what becomes
/// of a call without it. In Rattle no such call compiles. What is hidden has no documentation.
pub(crate) fn check_that_conditions_are_documented(tokens: &[Token]) -> Result<(), String> {
    let requires = |each: &Function| tokens[each.clauses.clone()].iter().any(|token| *token == "requires");
    for function in functions(tokens).iter().filter(|each| requires(each) && each.is_for_users(tokens)) {
        let head = &tokens[function.first..function.visibility];
        let is_hidden = words(head).contains("# [ doc ( hidden ) ]");
        let is_said = head.iter().any(|line| line.is_in(&["/// # Panics", "/// # Not checked"]));
        if !is_hidden && !is_said {
            let (line, name) = (tokens[function.at].line, function.name(tokens));
            return Err(format!("{line}: {name} requires something, and no section of its documentation says so"));
        }
    }
    Ok(())
}
