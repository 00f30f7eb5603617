//! Reads a source as tokens, and prints tokens. White space and comments are kept with the tokens: what is read and
//! then printed is the same text, and no rule looks at a comment.

/// A word, a literal, a line of documentation, or punctuation.
#[derive(Clone, Debug, Default)]
pub(crate) struct Token {
    pub text: String,
    /// The white space and the comments before it.
    pub before: String,
    /// The comment that follows it in its line, and so speaks of it.
    pub after: String,
    pub line: usize,
}

impl Token {
    pub fn is_in(&self, texts: &[&str]) -> bool {
        texts.contains(&&*self.text)
    }

    pub fn is_word(&self) -> bool {
        self.text.starts_with(is_in_word)
    }
}

impl PartialEq<&str> for Token {
    fn eq(&self, text: &&str) -> bool {
        self.text == *text
    }
}

/// Returns the tokens of a text, or an error that begins with the line. The last token is empty, and has what is after
/// the others.
pub(crate) fn lex(text: &str) -> Result<Vec<Token>, String> {
    let (mut tokens, mut rest, mut line): (Vec<Token>, _, _) = (Vec::new(), text, 1);
    loop {
        let (mut space, code) = rest.split_at(space_length(rest));
        line += space.matches('\n').count();
        if let Some(last) = tokens.last_mut() {
            let (after, next_lines) = space.split_at(comment_in_line_length(space));
            (last.after, space) = (after.to_owned(), next_lines);
        }
        let length = token_length(code).map_err(|what| format!("{line}: {what}"))?;
        let (text, more) = code.split_at(length);
        tokens.push(Token { text: text.to_owned(), before: space.to_owned(), after: String::new(), line });
        line += text.matches('\n').count();
        rest = more;
        if text.is_empty() {
            return Ok(tokens);
        }
    }
}

/// Returns the length of the white space and the comments that a text begins with.
fn space_length(text: &str) -> usize {
    let rest = text.trim_start();
    let space = text.len() - rest.len();
    if rest.starts_with("//") && !is_documentation(rest) {
        let end = space + line_length(rest);
        end + space_length(&text[end..])
    } else {
        space
    }
}

/// Returns the length of the comment, and the blanks before it, that a text begins with.
fn comment_in_line_length(text: &str) -> usize {
    if text.trim_start_matches(' ').starts_with("//") { line_length(text) } else { 0 }
}

fn line_length(text: &str) -> usize {
    text.find('\n').unwrap_or(text.len())
}

pub(crate) fn is_documentation(text: &str) -> bool {
    text.starts_with("//!") || text.starts_with("///") && !text.starts_with("////")
}

fn is_in_word(c: char) -> bool {
    c.is_alphanumeric() || c == '_'
}

/// Returns the length of the token that a text begins with.
fn token_length(text: &str) -> Result<usize, &'static str> {
    let quoted = text.strip_prefix('b').unwrap_or(text);
    let prefix = text.len() - quoted.len();
    if is_documentation(text) {
        Ok(line_length(text))
    } else if ["/*", "r\"", "r#", "br\"", "br#"].iter().any(|start| text.starts_with(start)) {
        Err("this program reads no block comment, no raw string and no raw name")
    } else if quoted.starts_with('"') {
        Ok(prefix + quoted_length(quoted)?)
    } else if let Some(rest) = quoted.strip_prefix('\'') {
        // Otherwise it is the name of a lifetime.
        let is_literal = rest.starts_with('\\') || rest[character_length(rest)..].starts_with('\'');
        Ok(prefix + if is_literal { quoted_length(quoted)? } else { 1 + length_while(rest, is_in_word) })
    } else if text.starts_with(is_in_word) {
        // A name of a definition may have primes.
        Ok(length_while(text, |c| is_in_word(c) || c == '\''))
    } else {
        let has_two = ["::", "->", "=>"].iter().any(|two| text.starts_with(two));
        Ok(if has_two { 2 } else { character_length(text) })
    }
}

/// Returns the length of a literal: the quotes that a text begins with, and what is between them.
fn quoted_length(text: &str) -> Result<usize, &'static str> {
    let mut is_escaped = false;
    let end = text.char_indices().skip(1).find(|(_, c)| {
        let is_end = text.starts_with(*c) && !is_escaped;
        is_escaped = *c == '\\' && !is_escaped;
        is_end
    });
    end.map(|(at, _)| at + 1).ok_or("nothing closes this quote")
}

fn length_while(text: &str, is_part: impl Fn(char) -> bool) -> usize {
    text.find(|c| !is_part(c)).unwrap_or(text.len())
}

fn character_length(text: &str) -> usize {
    text.chars().next().map_or(0, char::len_utf8)
}

/// Returns an error that begins with the line if a bracket matches no other one.
pub(crate) fn check_brackets(tokens: &[Token]) -> Result<(), String> {
    let mut open: Vec<&Token> = Vec::new();
    for token in tokens.iter().filter(|token| depth_change(token) != 0) {
        match (open.last().map(|last| &*last.text), &*token.text) {
            (Some("("), ")") | (Some("["), "]") | (Some("{"), "}") => drop(open.pop()),
            (_, ")" | "]" | "}") => return Err(format!("{}: nothing opens this `{}`", token.line, token.text)),
            _ => open.push(token),
        }
    }
    open.last().map_or(Ok(()), |last| Err(format!("{}: nothing closes this `{}`", last.line, last.text)))
}

/// Returns the text of tokens, with their comments.
pub(crate) fn print(tokens: &[Token]) -> String {
    tokens.iter().flat_map(|token| [&*token.before, &*token.text, &*token.after]).collect()
}

/// Returns the tokens with one space between two of them, and without comments.
pub(crate) fn words(tokens: &[Token]) -> String {
    tokens.iter().map(|token| &*token.text).collect::<Vec<_>>().join(" ")
}

/// Returns whether tokens have `&mut` or `&'a mut`.
pub(crate) fn has_mutable_reference(tokens: &[Token]) -> bool {
    tokens.windows(2).any(|pair| pair[1] == "mut" && (pair[0] == "&" || pair[0].text.starts_with('\'')))
}

/// Returns the index of the bracket that closes the one at an index.
pub(crate) fn closing(tokens: &[Token], open: usize) -> usize {
    let mut depth = 0;
    let is_end = |token: &Token| {
        depth += depth_change(token);
        depth == 0
    };
    open + tokens[open..].iter().position(is_end).expect("brackets match")
}

/// Returns the index of the bracket that opens what is closed at an index.
pub(crate) fn opening(tokens: &[Token], close: usize) -> usize {
    let mut depth = 0;
    let is_start = |token: &Token| {
        depth += depth_change(token);
        depth == 0
    };
    tokens[..=close].iter().rposition(is_start).expect("brackets match")
}

fn depth_change(token: &Token) -> i32 {
    i32::from(token.is_in(&["(", "[", "{"])) - i32::from(token.is_in(&[")", "]", "}"]))
}

/// Returns the index of the first of these texts, from an index on, that is in no inner bracket. If there is none, it
/// is the index of the bracket that closes what the index is in, or of the last token.
pub(crate) fn find(tokens: &[Token], mut at: usize, texts: &[&str]) -> usize {
    while at + 1 < tokens.len() && !tokens[at].is_in(texts) {
        match &*tokens[at].text {
            "(" | "[" | "{" => at = closing(tokens, at) + 1,
            ")" | "]" | "}" => break,
            _ => at += 1,
        }
    }
    at
}
