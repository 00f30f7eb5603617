//! Rules: tokens of a source, and those that are written in their place.

use crate::items::remove_and_keep_comment;
use crate::recipe::Recipe;
use crate::replacements::RULES;
use crate::tokens::{Token, check_brackets, is_documentation, lex, print};

/// Tokens of a source, and those that are written there. A rule of a table that matches nothing is an error.
pub(crate) struct Rule {
    /// What it is for, as `RULES` says it.
    of: &'static str,
    from: Vec<Token>,
    to: Vec<Token>,
    is_used: bool,
}

impl Rule {
    pub fn new(of: &'static str, from: &str, to: &str) -> Rule {
        let [from, to] = [from, to].map(|text| {
            let mut tokens = lex(text).expect("a rule has tokens");
            tokens.pop();
            tokens
        });
        Rule { of, from, to, is_used: false }
    }

    /// Returns those of the tables.
    pub fn all() -> Vec<Rule> {
        RULES.iter().flat_map(|(of, table)| table.iter().map(|(from, to)| Rule::new(of, from, to))).collect()
    }

    /// Returns what is wrong with a rule that has not been used, or `None`.
    pub fn fault(&self) -> Option<String> {
        (!self.is_used).then(|| format!("{}: the rule for `{}` matches nothing", self.of, print(&self.from)))
    }

    /// Returns whether it is for one of these.
    fn is_for(&self, place: &[&str]) -> bool {
        self.of.is_empty() || self.of.split(' ').any(|of| place.contains(&of))
    }

    fn matches(&self, tokens: &[Token]) -> bool {
        self.from.len() <= tokens.len() && self.from.iter().zip(tokens).all(|(from, token)| from.text == token.text)
    }

    /// Writes at an index, where the tokens of the source begin, those in their place.
    fn write_at(&self, tokens: &mut Vec<Token>, at: usize) {
        let (line, end) = (tokens[at].line, at + self.from.len());
        let mut to: Vec<Token> = self.to.iter().map(|token| Token { line, ..token.clone() }).collect();
        let Some(last) = to.last_mut() else {
            return remove_and_keep_comment(tokens, at..end);
        };
        last.after.clone_from(&tokens[end - 1].after);
        // rustfmt does not lay out the examples in documentation, where `assert!(rt; a)` becomes `assert!(a)`.
        if *last == "(" && tokens[end].before == " " {
            tokens[end].before.clear();
        }
        to[0].before.clone_from(&tokens[at].before);
        tokens.splice(at..end, to);
    }
}

/// Returns the tokens of a text at a path in a crate, with what the rules for it make of them.
pub(crate) fn lex_and_apply(text: &str, recipe: &Recipe, path: &str, rules: &mut [Rule]) -> Result<Vec<Token>, String> {
    let mut tokens = lex(text)?;
    check_brackets(&tokens)?;
    apply(rules, &[recipe.package, recipe.name, &format!("{}/{path}", recipe.name)], &mut tokens);
    apply_to_examples(&mut tokens, rules)?;
    Ok(tokens)
}

/// Writes the rules for a place, at each index the longest one that matches there.
fn apply(rules: &mut [Rule], place: &[&str], tokens: &mut Vec<Token>) {
    let mut rules: Vec<&mut Rule> = rules.iter_mut().filter(|rule| rule.is_for(place)).collect();
    let mut at = 0;
    while at < tokens.len() {
        let matching = rules.iter_mut().filter(|rule| rule.matches(&tokens[at..]));
        if let Some(rule) = matching.max_by_key(|rule| rule.from.len()) {
            rule.is_used = true;
            rule.write_at(tokens, at);
            at += rule.to.len();
        } else {
            at += 1;
        }
    }
}

/// Applies the rules for examples to those in documentation. What else a comment says is copied.
fn apply_to_examples(tokens: &mut [Token], rules: &mut [Rule]) -> Result<(), String> {
    let (mut is_fenced, mut is_example) = (false, false);
    for token in tokens.iter_mut().filter(|token| is_documentation(&token.text)) {
        let (mark, line) = token.text.split_at("///".len());
        if let Some(language) = line.trim().strip_prefix("```") {
            is_example = !is_fenced && language.is_empty();
            is_fenced = !is_fenced;
        } else if is_example {
            let mut code = lex(line).map_err(|what| format!("{}: in an example: {what}", token.line))?;
            apply(rules, &["examples"], &mut code);
            token.text = format!("{mark}{}", print(&code));
        }
    }
    Ok(())
}
