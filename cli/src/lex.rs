//! A text cut into tokens.

use crate::source::Span;

/// The words of the language, and two that the command takes for names of its own.
pub const RESERVED: [&str; 30] = [
    "Class",
    "Attribute",
    "Constant",
    "QueryClass",
    "View",
    "State",
    "axiom",
    "isA",
    "with",
    "attribute",
    "necessary",
    "single",
    "domain",
    "range",
    "inverse",
    "end",
    "derived",
    "where",
    "this",
    "loose",
    "types",
    "needs",
    "relates",
    "to",
    "for",
    "in",
    "is",
    "Object",
    "schema",
    "catalogue",
];

const SIGNS: [char; 13] = [
    ',', ':', '.', '(', ')', '&', '{', '}', '[', ']', '=', ';', '^',
];

#[derive(Clone, Copy, Debug, PartialEq, Eq)]
pub enum Kind {
    Name,
    /// A reserved word.
    Word,
    /// `?` and a name or a number.
    Mark,
    Sign,
    /// What is no token at all. It is a fault where the reader comes to it, so that
    /// the first fault of the text is told.
    Stray,
    /// The end of the text.
    End,
}

#[derive(Clone, Copy, Debug)]
pub struct Token<'a> {
    pub kind: Kind,
    pub text: &'a str,
    pub span: Span,
}

/// The tokens of the text; the last is its end, which stands directly after the
/// last but one.
pub fn tokens(text: &str) -> Vec<Token<'_>> {
    let mut tokens = Vec::new();
    let (mut start, mut last) = (0, 0);
    while let Some(rest) = text.get(start..).filter(|rest| !rest.is_empty()) {
        let blank = blank(rest);
        if blank > 0 {
            start += blank;
            continue;
        }
        let (kind, length) = cut(rest);
        last = start + length;
        let span = Span { start, end: last };
        tokens.push(Token {
            kind,
            text: &rest[..length],
            span,
        });
        start = last;
    }
    let (kind, span) = (
        Kind::End,
        Span {
            start: last,
            end: last,
        },
    );
    tokens.push(Token {
        kind,
        text: "",
        span,
    });
    tokens
}

/// Whether the text is a name that may be declared.
pub fn is_name(text: &str) -> bool {
    let first = text.chars().next();
    first.is_some_and(begins_name) && text.chars().all(in_name) && !RESERVED.contains(&text)
}

/// The length of the blanks, the comment or the byte order mark with which the text
/// begins.
fn blank(text: &str) -> usize {
    if text.starts_with("--") {
        return text.find('\n').unwrap_or(text.len());
    }
    length(text, |c| c.is_whitespace() || c == '\u{feff}')
}

/// The kind and the length of the token with which the text begins.
fn cut(text: &str) -> (Kind, usize) {
    let Some(first) = text.chars().next() else {
        return (Kind::End, 0);
    };
    if first == '?' {
        let name = &text[1..1 + length(&text[1..], in_name)];
        let is_number = !name.is_empty() && name.bytes().all(|byte| byte.is_ascii_digit());
        let is_mark = is_number || is_name(name);
        let kind = if is_mark { Kind::Mark } else { Kind::Stray };
        return (kind, 1 + name.len());
    }
    if SIGNS.contains(&first) {
        return (Kind::Sign, first.len_utf8());
    }
    if !in_name(first) {
        return (Kind::Stray, first.len_utf8());
    }
    let length = length(text, in_name);
    if !begins_name(first) {
        return (Kind::Stray, length);
    }
    let is_reserved = RESERVED.contains(&&text[..length]);
    (if is_reserved { Kind::Word } else { Kind::Name }, length)
}

fn begins_name(c: char) -> bool {
    c.is_alphabetic() || c == '_'
}

fn in_name(c: char) -> bool {
    c.is_alphanumeric() || c == '_'
}

/// The length of the characters of that sort with which the text begins.
fn length(text: &str, sort: impl Fn(char) -> bool) -> usize {
    text.find(|c| !sort(c)).unwrap_or(text.len())
}
