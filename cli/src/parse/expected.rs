//! Faults of the grammar: what stands in the text, and what was expected.

use super::{Parser, BEGINNINGS};
use crate::fault::Fault;
use crate::lex::Kind;
use crate::near::hint;

impl Parser<'_> {
    /// The fault that the next token is none of what was tried.
    pub(super) fn unexpected(&self) -> Fault {
        let token = self.peek();
        let text = token.text;
        let (span, message) = match (token.kind, &self.begun) {
            (Kind::Stray, _) => (token.span, stray(text)),
            (Kind::End, Some((word, name))) => {
                let message = format!("{word} `{}` is begun here and has no `end`", name.text);
                (name.span, message)
            }
            (Kind::Word, Some((word, name))) if BEGINNINGS.contains(&text) => {
                let line = self.source.place(name.span).line;
                let begun = format!("{word} `{}`, begun in line {line},", name.text);
                (
                    token.span,
                    format!("{begun} has no `end` before this `{text}`"),
                )
            }
            (kind, _) => {
                let found = match kind {
                    Kind::End => "the end of the file".to_string(),
                    Kind::Word => format!("the reserved word `{text}`"),
                    _ => format!("`{text}`"),
                };
                let expected = alternatives(&self.tried);
                let hint = hint(text, self.tried.iter().copied());
                (
                    token.span,
                    format!("{expected} is expected here, not {found}{hint}"),
                )
            }
        };
        self.fault(span, message)
    }
}

/// Words and signs in backquotes, descriptions as they are.
fn alternatives(tried: &[&str]) -> String {
    let mut texts: Vec<String> = Vec::new();
    for &one in tried {
        let text = match one.contains(' ') {
            true => one.to_string(),
            false => format!("`{one}`"),
        };
        if !texts.contains(&text) {
            texts.push(text);
        }
    }
    let last = texts.pop().unwrap_or_default();
    match texts.is_empty() {
        true => last,
        false => format!("{} or {last}", texts.join(", ")),
    }
}

/// What is said of a text that is no token.
fn stray(text: &str) -> String {
    let first = text.chars().next();
    if first == Some('?') {
        let is = "that is `?` and directly after it a number or a name that is not reserved";
        format!("`{text}` is no mark: {is}")
    } else if first.is_some_and(char::is_alphanumeric) {
        format!("`{text}` is no name: a name begins with a letter or `_`")
    } else {
        format!(
            "the character `{}` has no meaning here",
            text.escape_debug()
        )
    }
}
