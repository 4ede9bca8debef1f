//! The marks that a concept uses: those that stand anywhere in its syntax tree.

use crate::syntax::{Concept, Path};
use std::collections::BTreeSet;

pub fn used(concept: &Concept) -> BTreeSet<usize> {
    match concept {
        Concept::Mark(mark) => BTreeSet::from([*mark]),
        Concept::Class(_) | Concept::Everything | Concept::Constant(_) => BTreeSet::new(),
        Concept::Both(left, right) => &used(left) | &used(right),
        Concept::Reached(path) => of_path(path),
        Concept::Common(left, right) => &of_path(left) | &of_path(right),
    }
}

fn of_path(path: &Path) -> BTreeSet<usize> {
    match path {
        Path::Empty => BTreeSet::new(),
        Path::Then(before, step) => &of_path(before) | &used(&step.landing),
    }
}
