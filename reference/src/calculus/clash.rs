//! Clashes: facts that would make two constants, neither of them loose, the same
//! object.

use super::pair::Individual;
use super::terms::ConceptTerm;
use super::Calculus;
use crate::syntax::{Axiom, Role};

impl Calculus<'_> {
    pub(super) fn has_clash(&self) -> bool {
        self.pair
            .members()
            .into_iter()
            .any(|(concept, s)| match self.terms.concept(concept) {
                ConceptTerm::Constant(constant) => s.differs(self.pair.constant(constant)),
                ConceptTerm::Mark(mark) => s.differs(self.pair.mark(mark)),
                ConceptTerm::Class(class) => self.overfull(s, class),
                _ => false,
            })
    }

    /// Whether two constants that differ are values of an attribute that is single here.
    fn overfull(&self, s: Individual, class: usize) -> bool {
        self.schema.axioms.iter().any(|axiom| match *axiom {
            Axiom::Single {
                class: bound,
                attribute,
            } if bound == class => {
                let fillers = self.pair.fillers(s, Role::forward(attribute));
                matches!(fillers[..], [one, other, ..] if one.differs(other))
            }
            _ => false,
        })
    }
}
