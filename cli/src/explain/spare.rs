//! A view that no axiom speaks of: a query is held by it only if no legal state has an
//! object of the query.

use super::question::Question;
use crate::model::{Concept, File, Node, Path, Step};
use crate::source::Span;
use bikuvoa::layout::{MAX_ATTRIBUTES, MAX_CLASSES};
use bikuvoa::{Attribute, Class};

/// Asks whether the query is empty, by a class that the file does not declare, or else
/// by having a value of a further attribute; nothing if there can be neither.
pub fn is_empty(file: &File, query: &Concept) -> Option<Question> {
    asked(file, query, Concept::unplaced)
}

/// The same, by being in the view as well. No more objects are in both than in the
/// one, and a state that shows an object of the query then has objects along the
/// view's paths. Nothing if the two do not fit into a view.
pub fn is_empty_beside(file: &File, query: &Concept, view: &Concept) -> Option<Question> {
    let both = |spare| Concept::unplaced(Node::All(vec![view.clone(), Concept::unplaced(spare)]));
    let question = asked(file, query, both)?;
    bikuvoa::check_view(&question.schema, &question.view).ok()?;
    Some(question)
}

fn asked(file: &File, query: &Concept, view: impl FnOnce(Node) -> Concept) -> Option<Question> {
    let mut signature = file.names.signature();
    let node = if signature.classes < MAX_CLASSES {
        signature.classes += 1;
        Node::Class(Class(signature.classes - 1))
    } else if signature.attributes < MAX_ATTRIBUTES {
        signature.attributes += 1;
        has_value(Attribute(signature.attributes - 1))
    } else {
        return None;
    };
    Some(Question {
        schema: file.schema_with(signature, |_| true),
        query: query.words(),
        view: view(node).words(),
    })
}

fn has_value(attribute: Attribute) -> Node {
    let step = Step {
        span: Span::default(),
        attribute,
        backward: false,
        landing: Concept::unplaced(Node::Everything),
    };
    Node::Reached(Path {
        span: Span::default(),
        steps: vec![step],
    })
}
