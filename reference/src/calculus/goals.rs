//! The goal rules, which carry the view's parts to the individuals where they
//! are to be tested.

use super::terms::{ConceptTerm, PathId, PathTerm};
use super::{pair::Individual, Calculus};

impl Calculus<'_> {
    pub(super) fn derive_goals(&mut self) -> bool {
        let mut altered = false;
        for (concept, s) in self.pair.goals() {
            altered |= match self.terms.concept(concept) {
                // G1
                ConceptTerm::Both(left, right) => {
                    self.pair.add_goal(s, left) | self.pair.add_goal(s, right)
                }
                ConceptTerm::Exists(path) | ConceptTerm::Agrees(path) => self.follow(s, path),
                _ => false,
            };
        }
        altered
    }

    /// G2, and G3 where steps are left after the first.
    fn follow(&mut self, s: Individual, path: PathId) -> bool {
        let PathTerm::Step(role, landing, rest) = self.terms.path(path) else {
            return false;
        };
        let mut altered = false;
        for t in self.pair.fillers(s, role) {
            altered |= self.pair.add_goal(t, landing);
            if !self.is_empty(rest) {
                let onward = self.terms.concept_id(ConceptTerm::Exists(rest));
                altered |= self.pair.add_goal(t, onward);
            }
        }
        altered
    }
}
