//! Random signatures and axioms.

use super::Scale;
use crate::prng::Prng;
use bikuvoa::layout::{axiom, Pair, Signature};
use bikuvoa::layout::{MAX_ATTRIBUTES, MAX_AXIOMS, MAX_CLASSES, MAX_CONSTANTS};

/// A large triple may still have a small signature, where it all comes together.
pub(super) fn signature(prng: &mut Prng, scale: Scale) -> Signature {
    let (classes, attributes) = if scale == Scale::Small || prng.chance(50) {
        (1 + prng.word_below(4), 1 + prng.word_below(3))
    } else {
        let classes = prng.word_below(MAX_CLASSES + 1);
        (classes, prng.word_below(MAX_ATTRIBUTES + 1))
    };
    let constants = prng.word_below(MAX_CONSTANTS + 1);
    declaring(prng, [classes, attributes, constants])
}

/// So many classes, attributes and constants. Of the constants mostly some are
/// loose, and now and then none or all.
pub(super) fn declaring(prng: &mut Prng, declared: [u16; 3]) -> Signature {
    let [classes, attributes, constants] = declared;
    let all = (1 << constants) - 1;
    let loose = match prng.below(6) {
        0 => 0,
        1.. if all == 0 => 0,
        1 => all,
        _ => 1 + prng.word_below(all),
    };
    Signature {
        classes,
        attributes,
        constants,
        loose,
    }
}

pub(super) fn axioms(prng: &mut Prng, signature: Signature, scale: Scale) -> Vec<Pair> {
    if signature.classes == 0 {
        return Vec::new();
    }
    let mut axioms = Vec::new();
    if signature.attributes > 0 && prng.chance(50) {
        add_typed_cycle(prng, signature, &mut axioms);
    }
    let count = match scale {
        Scale::Small => axioms.len() + prng.between(0, 8),
        Scale::Large => prng.between(0, MAX_AXIOMS),
    };
    while axioms.len() < count {
        axioms.push(axiom(prng, signature));
    }
    prng.shuffle(&mut axioms);
    axioms
}

/// Classes in a circle, each of which needs a value in the next: the needs that
/// no finite chain of made values meets.
fn add_typed_cycle(prng: &mut Prng, signature: Signature, axioms: &mut Vec<Pair>) {
    let first = prng.word_below(signature.classes);
    let length = prng.between(1, 3);
    let mut class = first;
    for place in 1..=length {
        let attribute = prng.word_below(signature.attributes);
        let next = if place == length {
            first
        } else {
            prng.word_below(signature.classes)
        };
        axioms.push(axiom::necessary(class, attribute));
        axioms.push(axiom::typing(class, attribute, next));
        if prng.chance(30) {
            axioms.push(axiom::single(class, attribute));
        }
        class = next;
    }
}

fn axiom(prng: &mut Prng, signature: Signature) -> Pair {
    let class = prng.word_below(signature.classes);
    let other = prng.word_below(signature.classes);
    if signature.attributes == 0 {
        return axiom::subclass(class, other);
    }
    let attribute = prng.word_below(signature.attributes);
    match prng.below(5) {
        0 => axiom::subclass(class, other),
        1 => axiom::typing(class, attribute, other),
        2 => axiom::necessary(class, attribute),
        3 => axiom::single(class, attribute),
        _ => axiom::relates(attribute, class, other),
    }
}
