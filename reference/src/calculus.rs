//! Subsumption by the calculus of report RR-93-44, section 4, with one rule
//! added. Rules run until none applies; then the facts alone give the verdict.

#[cfg(test)]
mod canonical;
mod clash;
mod composition;
mod decomposition;
mod goals;
mod normal_form;
mod pair;
mod schema_rules;
mod terms;

use crate::marks;
use crate::syntax::{Concept, Schema};
use normal_form::normalise;
use pair::{Individual, Pair};
use terms::{ConceptId, Terms};

/// Whether the view holds the query in every legal state.
#[derive(Clone, Copy, Debug, PartialEq, Eq)]
pub enum Verdict {
    Held,
    Open,
}

/// Decides whether every object of the query is in the view, in every legal
/// state of any size and for any objects of the query's marks.
pub fn decide(schema: &Schema, query: &Concept, view: &Concept) -> Verdict {
    let mut calculus = Calculus::new(schema, query, view);
    calculus.complete();
    calculus.verdict()
}

/// A run of the calculus: the schema, the terms in use and the pair of facts
/// and goals. The rules are in the submodules, one family in each.
pub(crate) struct Calculus<'a> {
    schema: &'a Schema,
    terms: Terms,
    pair: Pair,
    view: ConceptId,
}

impl<'a> Calculus<'a> {
    /// A constant that the query does not name is an object of every state all
    /// the same, but nothing is forced on it, so no fact is about it.
    pub(crate) fn new(schema: &'a Schema, query: &Concept, view: &Concept) -> Self {
        let mut terms = Terms::default();
        let marks = marks::used(query);
        let query = normalise(&mut terms, query);
        let view = normalise(&mut terms, view);
        let individual = |constant| {
            if schema.loose.contains(&constant) {
                Individual::Loose(constant)
            } else {
                Individual::Constant(constant)
            }
        };
        let constants = (0..schema.constants).map(individual).collect();
        let pair = Pair::new(query, view, constants, &marks);
        Calculus {
            schema,
            terms,
            pair,
            view,
        }
    }

    /// Schema rules wait until no decomposition rule applies, and S5 waits for
    /// S4 as well, since a merge may supply the value that S5 would make.
    pub(crate) fn complete(&mut self) {
        while self.decompose()
            || self.apply_schema()
            || self.derive_goals()
            || self.make_values()
            || self.compose()
        {}
    }

    /// A clash leaves the query without objects, so any view holds it.
    pub(crate) fn verdict(&self) -> Verdict {
        let derived = self.pair.is_member(self.pair.start(), self.view);
        if derived || self.has_clash() {
            Verdict::Held
        } else {
            Verdict::Open
        }
    }
}
