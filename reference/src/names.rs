//! What a concept names. The sets of a concept are the union of those of its
//! parts in the syntax tree.

use crate::syntax::{Concept, Path, Step};
use std::collections::BTreeSet;

/// The class set and the attribute set of a concept.
#[derive(Clone, Debug, Default, PartialEq, Eq)]
pub struct Named {
    pub classes: BTreeSet<usize>,
    pub attributes: BTreeSet<usize>,
}

/// The classes and attributes that stand in the concept.
pub fn named(concept: &Concept) -> Named {
    match concept {
        Concept::Class(class) => Named {
            classes: BTreeSet::from([*class]),
            ..Named::default()
        },
        Concept::Everything | Concept::Constant(_) | Concept::Mark(_) => Named::default(),
        Concept::Both(left, right) => union(named(left), named(right)),
        Concept::Reached(path) => of_path(path),
        Concept::Common(left, right) => union(of_path(left), of_path(right)),
    }
}

fn of_path(path: &Path) -> Named {
    match path {
        Path::Empty => Named::default(),
        Path::Then(before, step) => union(of_path(before), of_step(step)),
    }
}

/// An attribute is named whichever way it is followed.
fn of_step(step: &Step) -> Named {
    let attribute = Named {
        attributes: BTreeSet::from([step.role.attribute]),
        ..Named::default()
    };
    union(attribute, named(&step.landing))
}

fn union(left: Named, right: Named) -> Named {
    Named {
        classes: &left.classes | &right.classes,
        attributes: &left.attributes | &right.attributes,
    }
}
