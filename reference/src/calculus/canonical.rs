//! The canonical interpretation of a completed run, as a state. Only tests
//! use it: the set semantics then confirm an open verdict from outside.

use super::pair::Individual;
use super::terms::ConceptTerm;
use super::Calculus;
use crate::syntax::{Axiom, Role, State};
use std::collections::{BTreeMap, BTreeSet};

impl Calculus<'_> {
    /// The state, and the object that stands for the first variable. The last
    /// object closes all needs for which no value was made.
    pub(crate) fn canonical_state(&self) -> (State, usize) {
        let numbers = self.number_individuals();
        let closing = numbers.len();
        let mut state = State {
            objects: closing + 1,
            classes: vec![BTreeSet::from([closing]); self.schema.classes],
            attributes: vec![BTreeSet::from([(closing, closing)]); self.schema.attributes],
            constants: (0..self.schema.constants)
                .map(|constant| numbers[&self.pair.constant(constant)])
                .collect(),
            marks: (self.pair.marks().iter())
                .map(|(&mark, s)| (mark, numbers[s]))
                .collect(),
        };
        for (concept, s) in self.pair.members() {
            if let ConceptTerm::Class(class) = self.terms.concept(concept) {
                state.classes[class].insert(numbers[&s]);
            }
        }
        for (s, role, t) in self.pair.edges() {
            if role == Role::forward(role.attribute) {
                state.attributes[role.attribute].insert((numbers[&s], numbers[&t]));
            }
        }
        self.close_needs(&mut state, closing);
        (state, numbers[&self.pair.start()])
    }

    /// All constants, whether or not a fact names them, and all individuals of
    /// the facts, among them those of the marks.
    fn number_individuals(&self) -> BTreeMap<Individual, usize> {
        let mut individuals = BTreeSet::from([self.pair.start()]);
        individuals.extend((0..self.schema.constants).map(|constant| self.pair.constant(constant)));
        individuals.extend(self.pair.members().into_iter().map(|(_, s)| s));
        individuals.extend(self.pair.edges().into_iter().map(|(s, _, _)| s));
        individuals.extend(self.pair.connections().into_iter().map(|(_, _, t)| t));
        individuals.into_iter().zip(0..).collect()
    }

    fn close_needs(&self, state: &mut State, closing: usize) {
        for axiom in &self.schema.axioms {
            let Axiom::Needs { class, attribute } = *axiom else {
                continue;
            };
            for &object in &state.classes[class] {
                let pairs = &mut state.attributes[attribute];
                let mut values = pairs.range((object, 0)..=(object, usize::MAX));
                if values.next().is_none() {
                    pairs.insert((object, closing));
                }
            }
        }
    }
}
