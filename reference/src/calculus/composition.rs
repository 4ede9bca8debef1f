//! The composition rules, which evaluate the view bottom up where a goal asks
//! for it.

use super::terms::{ConceptId, ConceptTerm, PathId, PathTerm};
use super::{pair::Individual, Calculus};

impl Calculus<'_> {
    pub(super) fn compose(&mut self) -> bool {
        let mut altered = false;
        for (concept, s) in self.pair.goals() {
            if let ConceptTerm::Exists(path) | ConceptTerm::Agrees(path) =
                self.terms.concept(concept)
            {
                altered |= self.compose_path(s, path);
            }
            if self.composes(s, concept) {
                altered |= self.pair.add_member(s, concept);
            }
        }
        altered
    }

    /// C1 to C4: whether the facts at hand make up the concept. A class is never
    /// made up, and no goal has a mark, since no view has.
    fn composes(&self, s: Individual, concept: ConceptId) -> bool {
        match self.terms.concept(concept) {
            ConceptTerm::Class(_) | ConceptTerm::Mark(_) => false,
            ConceptTerm::Top => true,
            ConceptTerm::Constant(constant) => s == self.pair.constant(constant),
            ConceptTerm::Both(left, right) => {
                self.pair.is_member(s, left) && self.pair.is_member(s, right)
            }
            ConceptTerm::Exists(path) => self.is_empty(path) || !self.pair.ends(s, path).is_empty(),
            ConceptTerm::Agrees(path) => self.is_empty(path) || self.pair.is_connected(s, path, s),
        }
    }

    /// C5, and C6 where no step is left after the first.
    fn compose_path(&mut self, s: Individual, path: PathId) -> bool {
        let PathTerm::Step(role, landing, rest) = self.terms.path(path) else {
            return false;
        };
        let mut altered = false;
        for middle in self.pair.fillers(s, role) {
            if !self.pair.is_member(middle, landing) {
                continue;
            }
            if self.is_empty(rest) {
                altered |= self.pair.connect(s, path, middle);
            } else {
                for end in self.pair.ends(middle, rest) {
                    altered |= self.pair.connect(s, path, end);
                }
            }
        }
        altered
    }
}
