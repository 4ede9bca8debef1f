//! The states of the inputs.

use super::schemas::{LARGEST, PERSON, STRAP, WEARS};
use crate::word;
use bikuvoa::layout::fact::{choice, member, name, pair};
use bikuvoa::layout::{state, Pair, Signature, MAX_FACTS, MAX_OBJECTS, STATE};

/// State S of document 01.
pub fn straps() -> Vec<u16> {
    let facts = [
        member(STRAP, 2),
        member(PERSON, 0),
        member(PERSON, 1),
        pair(WEARS, 0, 2),
        pair(WEARS, 1, 2),
        name(0, 0),
    ];
    state(3, &facts)
}

/// Every object in all classes, with one value of every attribute: whatever the
/// axioms, the state obeys them, so a search for a broken one goes through all.
pub fn all_alike(objects: u16, signature: Signature) -> Vec<u16> {
    state(objects, &alike(objects, signature))
}

/// As `all_alike` for the largest schema, with more values of attribute 0, the
/// one that need not be single, until no further fact fits.
pub fn largest() -> Vec<u16> {
    let mut facts = alike(MAX_OBJECTS, LARGEST);
    let more = MAX_FACTS - facts.len();
    facts.extend((2..).take(more).map(|far| pair(0, 0, far)));
    facts.sort_unstable();
    state(MAX_OBJECTS, &facts)
}

fn alike(objects: u16, signature: Signature) -> Vec<Pair> {
    let mut facts = Vec::new();
    for class in 0..signature.classes {
        facts.extend((0..objects).map(|object| member(class, object)));
    }
    for attribute in 0..signature.attributes {
        let next = |object| (object + 1 + attribute) % objects;
        facts.extend((0..objects).map(|object| pair(attribute, object, next(object))));
    }
    for constant in 0..signature.constants {
        facts.push(name(constant, constant));
    }
    facts
}

/// The state with an object for mark 0.
pub fn choosing(words: Vec<u16>) -> Vec<u16> {
    let facts = STATE.entries(&words).into_iter().flatten();
    let facts: Vec<Pair> = facts.chain([choice(0, 0)]).collect();
    STATE.record(&words, &facts)
}

/// All facts that a record can have but for so many, nearly all of them pairs.
pub fn dense(spare: usize) -> Vec<u16> {
    let mut facts = Vec::new();
    for class in 0..2 {
        facts.extend((0..MAX_OBJECTS).map(|object| member(class, object)));
    }
    let pairs = (0..word(MAX_FACTS - spare - facts.len())).map(|number| {
        let (far, object) = (number / MAX_OBJECTS, number % MAX_OBJECTS);
        pair(0, object, (object + far) % MAX_OBJECTS)
    });
    facts.extend(pairs);
    facts.sort_unstable();
    state(MAX_OBJECTS, &facts)
}
