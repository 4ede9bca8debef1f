//! The schema rules and the added rule. By table 1 axioms bind all objects, so
//! these rules apply to constants as they do to variables.

use super::pair::Individual;
use super::terms::{ConceptId, ConceptTerm, PathTerm};
use super::Calculus;
use crate::syntax::{Axiom, Role};

impl Calculus<'_> {
    /// All schema rules but S5.
    pub(super) fn apply_schema(&mut self) -> bool {
        let mut altered = false;
        let schema = self.schema;
        for axiom in &schema.axioms {
            altered |= match *axiom {
                Axiom::Includes { class, superclass } => self.include(class, superclass),
                Axiom::Types {
                    class,
                    attribute,
                    values,
                } => self.type_values(class, attribute, values),
                Axiom::Needs { class, attribute } => self.enter_domains(class, attribute),
                Axiom::Single { class, attribute } => self.merge_values(class, attribute),
                Axiom::Relates {
                    attribute,
                    domain,
                    range,
                } => self.type_pairs(attribute, domain, range),
            };
        }
        altered
    }

    fn members_of_class(&mut self, class: usize) -> Vec<Individual> {
        let concept = self.terms.class_id(class);
        self.pair.members_of(concept)
    }

    fn enter(&mut self, s: Individual, class: usize) -> bool {
        let concept = self.terms.class_id(class);
        self.pair.add_member(s, concept)
    }

    /// S1
    fn include(&mut self, class: usize, superclass: usize) -> bool {
        let mut altered = false;
        for s in self.members_of_class(class) {
            altered |= self.enter(s, superclass);
        }
        altered
    }

    /// S2
    fn type_values(&mut self, class: usize, attribute: usize, values: usize) -> bool {
        let mut altered = false;
        for s in self.members_of_class(class) {
            for t in self.pair.fillers(s, Role::forward(attribute)) {
                altered |= self.enter(t, values);
            }
        }
        altered
    }

    /// S3
    fn type_pairs(&mut self, attribute: usize, domain: usize, range: usize) -> bool {
        let mut altered = false;
        for (s, role, t) in self.pair.edges() {
            if role == Role::forward(attribute) {
                altered |= self.enter(s, domain) | self.enter(t, range);
            }
        }
        altered
    }

    /// The added rule. A required value exists in every legal state, so its
    /// owner is in the attribute's domains even where S5 makes no value.
    fn enter_domains(&mut self, class: usize, attribute: usize) -> bool {
        let mut altered = false;
        let schema = self.schema;
        for axiom in &schema.axioms {
            match *axiom {
                Axiom::Relates {
                    attribute: related,
                    domain,
                    ..
                } if related == attribute => altered |= self.include(class, domain),
                _ => {}
            }
        }
        altered
    }

    /// S4. Fillers ascend; a last one that is a constant and not loose means that
    /// only such are left, which is a clash. A member that an earlier merge has
    /// replaced has no fillers any more.
    fn merge_values(&mut self, class: usize, attribute: usize) -> bool {
        let mut altered = false;
        for s in self.members_of_class(class) {
            let fillers = self.pair.fillers(s, Role::forward(attribute));
            if let [first, .., last] = fillers[..] {
                altered |= self.pair.merge(first, last);
            }
        }
        altered
    }

    /// S5: makes a required value only where a goal follows the attribute, so
    /// circular needs end. A value so made alters no fact of older individuals,
    /// hence one pass may make all values that the present goals ask for.
    pub(super) fn make_values(&mut self) -> bool {
        let mut altered = false;
        for (concept, s) in self.pair.goals() {
            let Some(attribute) = self.first_attribute(concept) else {
                continue;
            };
            let role = Role::forward(attribute);
            if self.pair.fillers(s, role).is_empty() && self.needs(s, attribute) {
                let value = self.pair.fresh();
                altered |= self.pair.relate(s, role, value);
            }
        }
        altered
    }

    /// The attribute of a goal whose path begins with a forward step.
    fn first_attribute(&self, concept: ConceptId) -> Option<usize> {
        let (ConceptTerm::Exists(path) | ConceptTerm::Agrees(path)) = self.terms.concept(concept)
        else {
            return None;
        };
        match self.terms.path(path) {
            PathTerm::Step(role, ..) if role == Role::forward(role.attribute) => {
                Some(role.attribute)
            }
            _ => None,
        }
    }

    fn needs(&mut self, s: Individual, attribute: usize) -> bool {
        let schema = self.schema;
        schema.axioms.iter().any(|axiom| match *axiom {
            Axiom::Needs {
                class,
                attribute: needed,
            } => {
                let concept = self.terms.class_id(class);
                needed == attribute && self.pair.is_member(s, concept)
            }
            _ => false,
        })
    }
}
