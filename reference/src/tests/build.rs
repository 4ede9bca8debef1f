//! Short constructors for concepts, paths and schemas.

use crate::syntax::{Axiom, Concept, Path, Role, Schema, Step};
use std::collections::BTreeSet;

/// A schema without loose constants.
pub fn schema(classes: usize, attributes: usize, constants: usize, axioms: &[Axiom]) -> Schema {
    Schema {
        classes,
        attributes,
        constants,
        loose: BTreeSet::new(),
        axioms: axioms.to_vec(),
    }
}

pub fn class(number: usize) -> Concept {
    Concept::Class(number)
}

pub fn both(left: Concept, right: Concept) -> Concept {
    Concept::Both(Box::new(left), Box::new(right))
}

pub fn path(steps: &[(Role, Concept)]) -> Path {
    steps.iter().fold(Path::Empty, |before, (role, landing)| {
        let (role, landing) = (*role, landing.clone());
        Path::Then(Box::new(before), Box::new(Step { role, landing }))
    })
}

pub fn reached(steps: &[(Role, Concept)]) -> Concept {
    Concept::Reached(path(steps))
}

pub fn forward(attribute: usize) -> Role {
    Role::forward(attribute)
}

pub fn backward(attribute: usize) -> Role {
    Role::forward(attribute).inverse()
}
