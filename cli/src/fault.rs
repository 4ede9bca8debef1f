//! A fault of the input as it is told: where, in one sentence, and the line at
//! fault with carets under what is meant.

use crate::source::{Source, Span};
use std::error::Error;
use std::fmt;

/// What is wrong with the input; its text has several lines where there is a place
/// in a source.
#[derive(Clone, Debug, PartialEq, Eq)]
pub struct Fault(String);

/// A line longer than this is shown in part.
const LONGEST_LINE: usize = 160;
/// How much of a long line is shown before the place.
const LEAD: usize = 40;

impl Fault {
    /// A fault of the span.
    pub fn at(source: &Source, span: Span, message: impl Into<String>) -> Fault {
        let (line, carets) = excerpt(source, span);
        let (place, message) = (source.place(span), message.into());
        Fault(format!("{place}: {message}\n{line}\n{carets}"))
    }

    /// A fault without a place.
    pub fn of(message: impl Into<String>) -> Fault {
        Fault(message.into())
    }

    /// A fault of a record, at one of its words if that is known.
    pub fn in_record(file: &str, word: Option<usize>, message: impl Into<String>) -> Fault {
        let message = message.into();
        Fault(match word {
            Some(word) => format!("{file}: word {word}: {message}"),
            None => format!("{file}: {message}"),
        })
    }
}

impl fmt::Display for Fault {
    fn fmt(&self, f: &mut fmt::Formatter) -> fmt::Result {
        f.write_str(&self.0)
    }
}

impl Error for Fault {}

/// The line where the span begins, and the line below it with carets under the
/// span, at least one, as far as it stands in that line.
fn excerpt(source: &Source, span: Span) -> (String, String) {
    let text = &source.text;
    let before = text.get(..span.start).unwrap_or(text);
    let start = before.rfind('\n').map_or(0, |newline| newline + 1);
    let line = text[start..].lines().next().unwrap_or("");
    let column = before[start..].chars().count();
    let meant = source.at(span).lines().next().unwrap_or("");
    let width = meant.chars().count().max(1);

    let cut = if line.chars().count() > LONGEST_LINE {
        column.saturating_sub(LEAD)
    } else {
        0
    };
    let shown: Vec<char> = line.chars().skip(cut).take(LONGEST_LINE).collect();
    let column = column - cut;
    // Tabs are kept below the line, so that carets stand below what they mean.
    let below = |caret: char| move |&c: &char| if c == '\t' { c } else { caret };
    let mut carets: String = shown.iter().take(column).map(below(' ')).collect();
    let width = width.min(shown.len().saturating_sub(column)).max(1);
    carets.extend(std::iter::repeat_n('^', width));
    // A control character could do anything to a terminal.
    let clean = |c: char| match c {
        '\t' => c,
        c if c.is_control() => char::REPLACEMENT_CHARACTER,
        c => c,
    };
    (shown.into_iter().map(clean).collect(), carets)
}
