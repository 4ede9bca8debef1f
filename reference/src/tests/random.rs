//! Random schemas and concepts over a given alphabet.

use super::write;
use crate::syntax::{Axiom, Concept, Direction, Path, Role, Schema, Step};
use prng::Prng;

#[derive(Clone, Copy, Debug)]
pub struct Alphabet {
    pub classes: usize,
    pub attributes: usize,
    pub constants: usize,
    /// How many marks a concept may use: none but in a query.
    pub marks: usize,
}

pub fn schema(prng: &mut Prng, alphabet: Alphabet, axioms: usize) -> Schema {
    Schema {
        classes: alphabet.classes,
        attributes: alphabet.attributes,
        constants: alphabet.constants,
        loose: (0..alphabet.constants)
            .filter(|_| prng.chance(50))
            .collect(),
        axioms: (0..axioms).map(|_| axiom(prng, alphabet)).collect(),
    }
}

fn axiom(prng: &mut Prng, alphabet: Alphabet) -> Axiom {
    let class = prng.below(alphabet.classes);
    let other = prng.below(alphabet.classes);
    let attribute = prng.below(alphabet.attributes);
    match prng.below(5) {
        0 => Axiom::Includes {
            class,
            superclass: other,
        },
        1 => Axiom::Types {
            class,
            attribute,
            values: other,
        },
        2 => Axiom::Needs { class, attribute },
        3 => Axiom::Single { class, attribute },
        _ => Axiom::Relates {
            attribute,
            domain: class,
            range: other,
        },
    }
}

impl Alphabet {
    /// The same without marks, as for a view.
    pub fn unmarked(self) -> Self {
        Alphabet { marks: 0, ..self }
    }
}

/// A concept of at most the given steps whose record is accepted. Parts are
/// joined until a random share of the steps is used, so few come out trivial.
pub fn concept(prng: &mut Prng, alphabet: Alphabet, steps: usize) -> Concept {
    loop {
        let spare = prng.below(steps + 1);
        let mut left = steps;
        let mut concept = any(prng, alphabet, &mut left, 4);
        while left > spare {
            let part = any(prng, alphabet, &mut left, 4);
            concept = Concept::Both(Box::new(concept), Box::new(part));
        }
        if fits(&concept, steps) {
            return concept;
        }
    }
}

fn fits(concept: &Concept, steps: usize) -> bool {
    let words = write::concept(concept);
    words[0] <= 64 && usize::from(words[1]) <= steps
}

fn any(prng: &mut Prng, alphabet: Alphabet, steps: &mut usize, depth: usize) -> Concept {
    let sorts = if depth == 0 { 6 } else { 14 };
    match prng.below(sorts) {
        0..=5 if alphabet.marks > 0 && prng.chance(50) => Concept::Mark(prng.below(alphabet.marks)),
        0..=1 => Concept::Class(prng.below(alphabet.classes)),
        2 => Concept::Everything,
        3..=5 if alphabet.constants > 0 => Concept::Constant(prng.below(alphabet.constants)),
        3..=5 => Concept::Class(prng.below(alphabet.classes)),
        6..=8 => Concept::Both(
            Box::new(any(prng, alphabet, steps, depth - 1)),
            Box::new(any(prng, alphabet, steps, depth - 1)),
        ),
        9..=11 => Concept::Reached(path(prng, alphabet, steps, depth - 1)),
        _ => Concept::Common(
            path(prng, alphabet, steps, depth - 1),
            path(prng, alphabet, steps, depth - 1),
        ),
    }
}

fn path(prng: &mut Prng, alphabet: Alphabet, steps: &mut usize, depth: usize) -> Path {
    let mut path = Path::Empty;
    while *steps > 0 && prng.chance(65) {
        *steps -= 1;
        let direction = if prng.chance(70) {
            Direction::Forward
        } else {
            Direction::Backward
        };
        let role = Role {
            attribute: prng.below(alphabet.attributes),
            direction,
        };
        let landing = any(prng, alphabet, steps, depth.min(2));
        path = Path::Then(Box::new(path), Box::new(Step { role, landing }));
    }
    path
}

/// A view that asks less than the given query, so that held verdicts are not rare;
/// a random one if it would have too many steps.
pub fn weakened(prng: &mut Prng, alphabet: Alphabet, from: &Concept, steps: usize) -> Concept {
    let weaker = weaken(prng, from);
    if fits(&weaker, steps) {
        weaker
    } else {
        concept(prng, alphabet.unmarked(), steps)
    }
}

fn weaken(prng: &mut Prng, concept: &Concept) -> Concept {
    match concept {
        _ if prng.chance(10) => Concept::Everything,
        Concept::Mark(_) => Concept::Everything,
        Concept::Both(left, _) if prng.chance(30) => weaken(prng, left),
        Concept::Both(_, right) if prng.chance(40) => weaken(prng, right),
        Concept::Both(left, right) => {
            Concept::Both(Box::new(weaken(prng, left)), Box::new(weaken(prng, right)))
        }
        Concept::Reached(path) => Concept::Reached(weaken_path(prng, path, true)),
        Concept::Common(left, _) if prng.chance(20) => {
            Concept::Reached(weaken_path(prng, left, true))
        }
        Concept::Common(left, right) => Concept::Common(
            weaken_path(prng, left, false),
            weaken_path(prng, right, false),
        ),
        leaf => leaf.clone(),
    }
}

/// Only a path that need not meet another may lose its end.
fn weaken_path(prng: &mut Prng, path: &Path, may_end: bool) -> Path {
    match path {
        Path::Empty => Path::Empty,
        Path::Then(before, _) if may_end && prng.chance(20) => weaken_path(prng, before, true),
        Path::Then(before, step) => {
            let landing = weaken(prng, &step.landing);
            let role = step.role;
            let before = weaken_path(prng, before, false);
            Path::Then(Box::new(before), Box::new(Step { role, landing }))
        }
    }
}
