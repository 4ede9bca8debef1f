//! The decomposition rules, which break facts up into classes, attribute
//! pairs and constants. D2 is part of `Pair::relate`.

use super::pair::Individual;
use super::terms::{ConceptTerm, PathId, PathTerm};
use super::Calculus;

impl Calculus<'_> {
    pub(super) fn decompose(&mut self) -> bool {
        let mut altered = self.merge_named();
        for (concept, s) in self.pair.members() {
            altered |= match self.terms.concept(concept) {
                // D1
                ConceptTerm::Both(left, right) => {
                    self.pair.add_member(s, left) | self.pair.add_member(s, right)
                }
                ConceptTerm::Exists(path) => self.start_path(s, path),
                ConceptTerm::Agrees(path) => self.close_path(s, path),
                _ => false,
            };
        }
        for (s, path, t) in self.pair.connections() {
            altered |= self.break_path(s, path, t);
        }
        altered
    }

    /// D3: an individual that is in a constant or in a mark and the one that stands
    /// for the constant or the mark become one.
    fn merge_named(&mut self) -> bool {
        let mut altered = false;
        for (concept, s) in self.pair.members() {
            let term = self.terms.concept(concept);
            // An earlier merge may have replaced this individual in all facts;
            // then there is nothing left of it to merge.
            if self.pair.is_member(s, concept) {
                altered |= match term {
                    ConceptTerm::Constant(constant) => {
                        self.pair.merge(s, self.pair.constant(constant))
                    }
                    ConceptTerm::Mark(mark) => self.pair.merge(s, self.pair.mark(mark)),
                    _ => false,
                };
            }
        }
        altered
    }

    /// D4. The empty path is left out: by table 1 it reaches its own start, so
    /// a fresh variable at its end would stand for a second object.
    fn start_path(&mut self, s: Individual, path: PathId) -> bool {
        if self.is_empty(path) || !self.pair.ends(s, path).is_empty() {
            return false;
        }
        let end = self.pair.fresh();
        self.pair.connect(s, path, end)
    }

    /// D5. The empty path returns to its start without being told to.
    fn close_path(&mut self, s: Individual, path: PathId) -> bool {
        !self.is_empty(path) && self.pair.connect(s, path, s)
    }

    /// D6 and D7, by whether a step is left after the first.
    fn break_path(&mut self, s: Individual, path: PathId, t: Individual) -> bool {
        let PathTerm::Step(role, landing, rest) = self.terms.path(path) else {
            return false;
        };
        if self.is_empty(rest) {
            return self.pair.relate(s, role, t) | self.pair.add_member(t, landing);
        }
        let found = self.pair.fillers(s, role).into_iter().any(|middle| {
            self.pair.is_member(middle, landing) && self.pair.is_connected(middle, rest, t)
        });
        if found {
            return false;
        }
        let middle = self.pair.fresh();
        self.pair.relate(s, role, middle);
        self.pair.add_member(middle, landing);
        self.pair.connect(middle, rest, t)
    }

    pub(super) fn is_empty(&self, path: PathId) -> bool {
        self.terms.path(path) == PathTerm::Empty
    }
}
