//! Random states whose records are accepted, legal or not.

use super::repair::{model, repair, Values};
use super::sketch::Sketch;
use crate::call::Entry;
use crate::prng::Prng;
use crate::word;
use bikuvoa::layout::{self, fact, Pair, Signature, MAX_FACTS, MAX_OBJECTS};
use reference::marks::used;
use reference::syntax::{Concept, Schema};
use std::collections::BTreeSet;

/// The most objects, as a count.
const OBJECTS: usize = MAX_OBJECTS as usize;

/// A state as its number of objects and its ascending facts, with those of the marks
/// that a query uses.
#[derive(Clone, Debug)]
pub struct State {
    pub objects: usize,
    pub facts: Vec<Pair>,
}

impl State {
    pub(super) fn new(objects: usize, mut facts: Vec<Pair>) -> Self {
        facts.sort_unstable();
        facts.dedup();
        State { objects, facts }
    }

    /// The record for an entry: without facts of marks, where it takes no marks.
    pub fn words_for(&self, entry: Entry) -> Vec<u16> {
        let end = if entry.takes_marks {
            self.facts.len()
        } else {
            self.first_of(fact::MARK_KINDS)
        };
        layout::state(word(self.objects), &self.facts[..end])
    }

    /// The place of the first fact of that kind or a higher one.
    fn first_of(&self, kind: u16) -> usize {
        self.facts
            .partition_point(|&entry| fact::kind(entry) < kind)
    }

    /// With any object for each of the marks that has none yet, and so with an object
    /// at all.
    fn choosing(self, prng: &mut Prng, marks: &BTreeSet<usize>) -> Self {
        let State { objects, mut facts } = self;
        let objects = objects.max(marks.len().min(1));
        for &mark in marks {
            let kind = fact::MARK_KINDS + word(mark);
            if !facts.iter().any(|&entry| fact::kind(entry) == kind) {
                facts.push(fact::choice(word(mark), word(prng.below(objects))));
            }
        }
        State::new(objects, facts)
    }
}

/// A state for the schema, and for the marks that the query uses. Some have an object in the query, some obey the
/// schema, some are a fact away from it, and a few reach the limits.
pub fn state(prng: &mut Prng, signature: Signature, schema: &Schema, query: &Concept) -> State {
    match prng.below(1000) {
        0..=27 => large(prng, signature, schema, query),
        28..=79 => scattered(prng, signature, 60)
            .state(prng)
            .choosing(prng, &used(query)),
        80..=249 => {
            let state = small(prng, signature, schema, query);
            one_fact_away(prng, signature, &state)
        }
        _ => small(prng, signature, schema, query),
    }
}

/// A state of up to as many objects as there may be.
pub fn large(prng: &mut Prng, signature: Signature, schema: &Schema, query: &Concept) -> State {
    match prng.below(14) {
        0 => full(prng, signature, &used(query)),
        1..=3 => scattered(prng, signature, OBJECTS)
            .state(prng)
            .choosing(prng, &used(query)),
        _ => {
            let state = small(prng, signature, schema, query);
            copies(prng, &state)
        }
    }
}

/// As large as a record can be: every object in all classes and its own value
/// of every attribute, with random pairs for the rest of the facts. A loose
/// constant names the object of any constant.
pub(super) fn full(prng: &mut Prng, signature: Signature, marks: &BTreeSet<usize>) -> State {
    let mut facts = Vec::new();
    for object in 0..MAX_OBJECTS {
        facts.extend((0..signature.classes).map(|class| fact::member(class, object)));
        let own = |attribute| fact::pair(attribute, object, object);
        facts.extend((0..signature.attributes).map(own));
    }
    for constant in 0..signature.constants {
        let object = if signature.is_loose(constant) {
            prng.word_below(signature.constants)
        } else {
            constant
        };
        facts.push(fact::name(constant, object));
    }
    let mut state = State::new(OBJECTS, facts).choosing(prng, marks);
    while signature.attributes > 0 && state.facts.len() < MAX_FACTS {
        for _ in state.facts.len()..MAX_FACTS {
            let pair = random_pair(prng, signature, OBJECTS);
            state.facts.push(pair);
        }
        state = State::new(state.objects, state.facts);
    }
    state
}

/// A few objects. Where a repair fails because two constants that are not loose
/// would be one object, the facts stay as they were scattered.
fn small(prng: &mut Prng, signature: Signature, schema: &Schema, query: &Concept) -> State {
    let sketch = scattered(prng, signature, 8);
    let state = match prng.below(10) {
        0..=2 => sketch.state(prng),
        3..=4 => {
            let mut repaired = sketch.clone();
            match repair(&mut repaired, schema, Values::Any, prng) {
                Ok(()) => repaired.state(prng),
                Err(_) => sketch.state(prng),
            }
        }
        _ => match model(signature, schema, query, Values::Any, prng) {
            Ok((model, _)) => model.state(prng),
            Err(_) => sketch.state(prng),
        },
    };
    state.choosing(prng, &used(query))
}

/// Random facts over at most the given number of objects.
fn scattered(prng: &mut Prng, signature: Signature, most: usize) -> Sketch {
    let mut sketch = Sketch::new(signature);
    for _ in sketch.objects().len()..prng.between(0, most) {
        sketch.add_object();
    }
    sketch.share(prng);
    let objects = sketch.objects();
    for class in 0..signature.classes {
        let percent = prng.below(100);
        for &object in &objects {
            if prng.chance(percent) {
                sketch.enter(object, class.into());
            }
        }
    }
    for attribute in 0..signature.attributes {
        // Even with all objects in all classes, so many pairs are not too many for
        // a record.
        let most = OBJECTS.min(2 * objects.len());
        for _ in 0..prng.between(0, most) {
            let [first, second] = [(); 2].map(|()| objects[prng.below(objects.len())]);
            sketch.relate(attribute, first, second);
        }
    }
    sketch
}

/// The state beside itself, as often as the limits allow or less often. Axioms
/// see one copy at a time, so the copies are as legal as the state.
fn copies(prng: &mut Prng, state: &State) -> State {
    let most = OBJECTS / state.objects.max(1);
    let most = most.min(MAX_FACTS / state.facts.len().max(1));
    let mut facts = state.facts.clone();
    let count = prng.between(1, most.max(1));
    for copy in 1..count {
        let shift = word(copy * state.objects);
        let moved = state.facts.iter().filter_map(|&fact| moved(fact, shift));
        facts.extend(moved);
    }
    State::new(count * state.objects, facts)
}

/// The fact with its objects shifted; a constant or a mark keeps its one object.
fn moved((left, right): Pair, shift: u16) -> Option<Pair> {
    match fact::kind((left, right)) {
        kind if kind < fact::ATTRIBUTE_KINDS => Some((left + shift, right)),
        kind if kind < fact::CONSTANT_KINDS => Some((left + shift, right + shift)),
        _ => None,
    }
}

/// The state with one fact more or less, or with another object for a mark, but
/// with an object of each constant and mark.
fn one_fact_away(prng: &mut Prng, signature: Signature, state: &State) -> State {
    let mut facts = state.facts.clone();
    let free = state.first_of(fact::CONSTANT_KINDS);
    let chosen: Vec<usize> = (state.first_of(fact::MARK_KINDS)..facts.len()).collect();
    if !chosen.is_empty() && prng.chance(40) {
        let place = chosen[prng.below(chosen.len())];
        let mark = fact::kind(facts[place]) - fact::MARK_KINDS;
        facts[place] = fact::choice(mark, word(prng.below(state.objects)));
    } else if free > 0 && prng.chance(60) {
        facts.remove(prng.below(free));
    } else if state.objects > 0 && signature.attributes > 0 && prng.chance(50) {
        facts.push(random_pair(prng, signature, state.objects));
    } else if state.objects > 0 && signature.classes > 0 {
        let class = prng.word_below(signature.classes);
        facts.push(fact::member(class, word(prng.below(state.objects))));
    }
    State::new(state.objects, facts)
}

fn random_pair(prng: &mut Prng, signature: Signature, objects: usize) -> Pair {
    let attribute = prng.word_below(signature.attributes);
    let (first, second) = (prng.below(objects), prng.below(objects));
    fact::pair(attribute, word(first), word(second))
}
