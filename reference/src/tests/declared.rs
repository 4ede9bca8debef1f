//! What verdicts on records are tried over: two classes, two attributes and four
//! constants, some of them loose.

use super::build::{both, reached, schema};
use super::write;
use crate::calculus::Verdict;
use crate::entries::{decide, holds, DECIDE_WORDS};
use crate::syntax::{Axiom, Concept, Role, Schema};

pub const A: usize = 0;
pub const B: usize = 1;
pub const P: usize = 0;
pub const Q: usize = 1;

/// An object of A has at most one value of P.
pub const SINGLE: Axiom = Axiom::Single {
    class: A,
    attribute: P,
};

/// A schema in which these constants are loose.
pub fn declared(loose: &[usize], axioms: &[Axiom]) -> Schema {
    Schema {
        loose: loose.iter().copied().collect(),
        ..schema(2, 2, 4, axioms)
    }
}

/// Both entries have one verdict.
pub fn verdict(schema: &Schema, query: &Concept, view: &Concept) -> Verdict {
    let (query, view) = (write::concept(query), write::concept(view));
    let schema = write::schema(schema);
    let verdict = holds(&schema, &query, &view).expect("an accepted triple");
    assert_eq!(decide(&schema, &query, &view, DECIDE_WORDS), Ok(verdict));
    verdict
}

pub fn constant(number: usize) -> Concept {
    Concept::Constant(number)
}

pub fn to(role: Role, landing: Concept) -> Concept {
    reached(&[(role, landing)])
}

/// What is in all of these.
pub fn all(concepts: &[Concept]) -> Concept {
    let each = concepts.iter().cloned();
    each.reduce(both).expect("a concept")
}
