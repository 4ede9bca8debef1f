//! Queries and views that stand in others by their names.

use super::grouped;
use super::query::Asked;
use super::scope::What;
use crate::fault::Fault;
use crate::model::{Concept, Name, Node, Path};
use crate::source::Span;
use bikuvoa::layout::MAX_TOKENS;

/// So many tokens of other queries may be put in the place of names: far more than
/// the library accepts, so that a fault can say how many there are, and far fewer
/// than fill the memory.
const MOST_INLINED: usize = 10_000;

impl Asked<'_> {
    /// The class of that name, or the concept of the query or view.
    pub(super) fn named(&mut self, name: &Name) -> Result<Concept, Fault> {
        let resolver = self.resolver;
        let place = match resolver.scope.framed(&name.text) {
            Some(What::Class(class)) => {
                let (span, node) = (name.span, Node::Class(class));
                return Ok(Concept { span, node });
            }
            Some(What::Query(place) | What::View(place)) => place,
            _ => return Err(resolver.unknown(name, "class, query or view", What::is_member)),
        };
        let Some(query) = resolver.file.queries.get(place) else {
            let message = match name.text == self.frame.name.text {
                true => format!("`{}` cannot stand in itself", name.text),
                false => format!(
                    "`{}` stands further below; it must stand above to be used here",
                    name.text
                ),
            };
            return Err(resolver.fault(name.span, message));
        };
        if !query.marks.is_empty() {
            let message = format!("`{}` has marks, and so cannot be used here", name.text);
            return Err(resolver.fault(name.span, message));
        }
        self.count(query.concept.tokens().len())?;
        let mut concept = query.concept.clone();
        place_all(&mut concept, name.span);
        Ok(concept)
    }

    /// Counts the tokens that stand in place of a name.
    fn count(&mut self, tokens: usize) -> Result<(), Fault> {
        self.inlined += tokens;
        if self.inlined <= MOST_INLINED {
            return Ok(());
        }
        let word = match self.frame.is_view {
            true => "View",
            false => "QueryClass",
        };
        let (name, most) = (&self.frame.name, grouped(MOST_INLINED));
        let limit = format!("a concept has at most {MAX_TOKENS}");
        let text = &name.text;
        let message = format!("{word} `{text}` has more than {most} tokens; {limit}");
        Err(self.resolver.fault(name.span, message))
    }
}

/// Lets everything in the concept stand in the one place.
fn place_all(concept: &mut Concept, span: Span) {
    concept.span = span;
    match &mut concept.node {
        Node::All(parts) => parts.iter_mut().for_each(|part| place_all(part, span)),
        Node::Reached(path) => place_path(path, span),
        Node::Common(left, right) => {
            place_path(left, span);
            place_path(right, span);
        }
        Node::Class(_) | Node::Everything | Node::Constant(_) | Node::Mark(_) => {}
    }
}

fn place_path(path: &mut Path, span: Span) {
    path.span = span;
    for step in &mut path.steps {
        step.span = span;
        place_all(&mut step.landing, span);
    }
}
