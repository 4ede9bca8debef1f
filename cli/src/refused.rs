//! The library's refusals as faults: of a query or view in a file, and of a record.

mod spot;

use crate::fault::Fault;
use crate::model::{Concept, File, Node, Path, QueryClass};
use crate::source::Span;
use bikuvoa::layout::{self, token, MAX_TOKENS, QUERY_STEPS, VIEW_STEPS};
use bikuvoa::Refusal;

pub use spot::{spot, Sort, Spot};

/// The place in which a concept stands.
#[derive(Clone, Copy, Debug, PartialEq, Eq)]
pub enum Role {
    /// Of a query without marks, as `select` takes it.
    Plain,
    /// Of a query that is decided on.
    Query,
    View,
}

impl Role {
    fn noun(self) -> &'static str {
        match self {
            Role::Plain => "a query by which objects are selected",
            Role::Query => "a query",
            Role::View => "a view",
        }
    }

    fn most_steps(self) -> usize {
        match self {
            Role::Plain | Role::Query => QUERY_STEPS,
            Role::View => VIEW_STEPS,
        }
    }
}

/// The fault of a query or view of the file that was refused in that place.
pub fn concept(file: &File, query: &QueryClass, role: Role, refusal: Refusal) -> Fault {
    let word = if query.is_view { "View" } else { "QueryClass" };
    let (name, noun) = (&query.name.text, role.noun());
    let (span, message) = match (refusal, mark(&query.concept)) {
        (Refusal::BAD_STEPS, _) => {
            let tokens = query.concept.tokens();
            let steps = tokens.iter().filter(|token| token::is_step(token.words()));
            let (steps, most) = (steps.count(), role.most_steps());
            let message = format!("{word} `{name}` has {steps} steps; {noun} has at most {most}");
            (query.name.span, message)
        }
        (Refusal::BAD_CONCEPT_SHAPE, _) => {
            let tokens = query.concept.tokens().len();
            let message =
                format!("{word} `{name}` has {tokens} tokens; a concept has at most {MAX_TOKENS}");
            (query.name.span, message)
        }
        (Refusal::BAD_TOKEN, Some(span)) => {
            let text = file.source.at(span);
            (
                span,
                format!("`{text}` of {word} `{name}` is a mark; {noun} has none"),
            )
        }
        _ => (query.name.span, format!("{word} `{name}` is {refusal}")),
    };
    Fault::at(&file.source, span, message)
}

/// Where the first mark of the concept stands.
fn mark(concept: &Concept) -> Option<Span> {
    let in_path = |path: &Path| path.steps.iter().find_map(|step| mark(&step.landing));
    match &concept.node {
        Node::Mark(_) => Some(concept.span),
        Node::All(parts) => parts.iter().find_map(mark),
        Node::Reached(path) => in_path(path),
        Node::Common(left, right) => in_path(left).or_else(|| in_path(right)),
        Node::Class(_) | Node::Everything | Node::Constant(_) => None,
    }
}

/// The fault of a record that was refused: the text of the refusal, and the word.
/// Of an entry that is the left word, and the text says where the right one is.
pub fn in_record(file: &str, sort: Sort, words: &[u16], refusal: Refusal) -> Fault {
    let spot = spot(sort, words, refusal);
    if let (Sort::Catalogue { schema }, Spot::Entry(number)) = (sort, spot) {
        let views = layout::views(words).unwrap_or_default();
        let before: usize = views.iter().take(number).map(|view| view.len()).sum();
        let start = 1 + views.len() + before;
        let role = Role::View;
        let (word, right) = match views.get(number) {
            Some(view) => place(Sort::Concept { schema, role }, view, refusal, start),
            None => (None, String::new()),
        };
        let word = word.or(Some(start));
        return Fault::in_record(file, word, format!("view {number} is {refusal}{right}"));
    }
    let (word, right) = place(sort, words, refusal, 0);
    Fault::in_record(file, word, format!("{refusal}{right}"))
}

/// The word of the spot where the record begins at that word, and of an entry what
/// is to be said of its right word.
fn place(sort: Sort, words: &[u16], refusal: Refusal, start: usize) -> (Option<usize>, String) {
    match (spot(sort, words, refusal), sort.layout()) {
        (Spot::Size(size), _) => (Some(start + size), String::new()),
        (Spot::Entry(entry), Some(layout)) => {
            let left = start + layout.sizes + entry;
            let right = left + words.len().saturating_sub(layout.sizes) / 2;
            (Some(left), format!("; its right word is word {right}"))
        }
        _ => (None, String::new()),
    }
}
