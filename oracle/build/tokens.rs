//! Rust text as tokens, as far as the given files need it.

/// A token: where it stands in the text.
#[derive(Copy, Clone)]
pub struct Token {
    pub start: usize,
    pub end: usize,
}

/// Operators of more than one character, longer ones first.
const OPERATORS: &[&str] = &[
    "..=", "&&", "||", "=>", "->", "::", "==", "!=", "<=", ">=", "<<", ">>", "..", "+=", "-=",
    "*=", "|=", "&=",
];

/// The tokens of a text; comments and blanks are left out.
pub fn tokens(text: &str) -> Vec<Token> {
    let mut found = Vec::new();
    let mut at = 0;
    while at < text.len() {
        let rest = &text[at..];
        let size = size(rest);
        if !rest.starts_with("//") && !rest.starts_with(char::is_whitespace) {
            found.push(Token {
                start: at,
                end: at + size,
            });
        }
        at += size;
    }
    found
}

/// The length of the token, comment or blank that a text begins with.
fn size(rest: &str) -> usize {
    if rest.starts_with("//") {
        return rest.find('\n').unwrap_or(rest.len());
    }
    if let Some(operator) = OPERATORS.iter().find(|op| rest.starts_with(**op)) {
        return operator.len();
    }
    let first = rest.chars().next().expect("the text goes on");
    if !is_word(first) {
        return first.len_utf8();
    }
    rest.find(|c| !is_word(c)).unwrap_or(rest.len())
}

/// Whether a character belongs to a name or number; a lifetime's tick is taken as one.
fn is_word(c: char) -> bool {
    c.is_alphanumeric() || c == '_' || c == '\''
}
