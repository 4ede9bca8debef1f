//! Schemas, concepts, paths and states once their records are decoded.

use std::collections::{BTreeMap, BTreeSet};

/// The declared alphabet and its axioms, in record order.
#[derive(Clone, Debug, PartialEq, Eq)]
pub struct Schema {
    pub classes: usize,
    pub attributes: usize,
    pub constants: usize,
    /// The constants that may name the same object as any other.
    pub loose: BTreeSet<usize>,
    pub axioms: Vec<Axiom>,
}

/// The five kinds of axiom, in the order of their kind numbers.
#[derive(Clone, Copy, Debug, PartialEq, Eq)]
pub enum Axiom {
    Includes {
        class: usize,
        superclass: usize,
    },
    Types {
        class: usize,
        attribute: usize,
        values: usize,
    },
    Needs {
        class: usize,
        attribute: usize,
    },
    Single {
        class: usize,
        attribute: usize,
    },
    Relates {
        attribute: usize,
        domain: usize,
        range: usize,
    },
}

/// A query, a view or a part of one.
#[derive(Clone, Debug, PartialEq, Eq)]
pub enum Concept {
    Class(usize),
    Everything,
    Constant(usize),
    /// The object of a mark. Only a query has marks.
    Mark(usize),
    Both(Box<Concept>, Box<Concept>),
    Reached(Path),
    Common(Path, Path),
}

/// A path grows at its end, as the tokens build it.
#[derive(Clone, Debug, PartialEq, Eq)]
pub enum Path {
    Empty,
    Then(Box<Path>, Box<Step>),
}

/// One step of a path and the concept that its landing object must satisfy.
#[derive(Clone, Debug, PartialEq, Eq)]
pub struct Step {
    pub role: Role,
    pub landing: Concept,
}

/// An attribute with the direction in which it is followed.
#[derive(Clone, Copy, Debug, PartialEq, Eq, PartialOrd, Ord, Hash)]
pub struct Role {
    pub attribute: usize,
    pub direction: Direction,
}

#[derive(Clone, Copy, Debug, PartialEq, Eq, PartialOrd, Ord, Hash)]
pub enum Direction {
    Forward,
    Backward,
}

impl Role {
    pub fn forward(attribute: usize) -> Self {
        let direction = Direction::Forward;
        Role {
            attribute,
            direction,
        }
    }

    pub fn inverse(self) -> Self {
        let direction = match self.direction {
            Direction::Forward => Direction::Backward,
            Direction::Backward => Direction::Forward,
        };
        Role { direction, ..self }
    }
}

/// A finite state over the objects below `objects`, with a choice of objects for
/// marks; each vector is indexed by the declared number of a class, attribute or
/// constant.
#[derive(Clone, Debug, PartialEq, Eq)]
pub struct State {
    pub objects: usize,
    pub classes: Vec<BTreeSet<usize>>,
    pub attributes: Vec<BTreeSet<(usize, usize)>>,
    pub constants: Vec<usize>,
    /// The object of each mark that the query at hand uses.
    pub marks: BTreeMap<usize, usize>,
}
