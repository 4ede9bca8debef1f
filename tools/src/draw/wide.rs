//! Triples whose counterexamples are large: a query of many steps to objects
//! that need every attribute, and a view that follows the needs of each.

use super::schema;
use super::triple::{Marks, Triple};
use crate::prng::Prng;
use bikuvoa::layout::token::{self, BOTH, EMPTY, EVERYTHING, REACHED};
use bikuvoa::layout::{axiom, Pair, Signature, QUERY_STEPS, VIEW_STEPS};
use bikuvoa::layout::{MAX_ATTRIBUTES, MAX_CONSTANTS};

/// The class with the needs, and the class on which the view may land.
const NEEDY: u16 = 0;
const OTHER: u16 = 1;

/// Steps of each path of the query: four such paths have all its steps, in
/// fewer tokens than there may be.
const STRETCH: usize = 4;

/// A triple that is often open, with a state of hundreds of objects. Marks make it
/// smaller, since they merge objects.
pub fn triple(prng: &mut Prng, marks: Marks) -> Triple {
    let constants = prng.word_below(MAX_CONSTANTS + 1);
    let signature = schema::declaring(prng, [2, MAX_ATTRIBUTES, constants]);
    let triple = Triple {
        signature,
        axioms: axioms(prng, signature),
        query: query(prng, signature),
        view: view(prng, signature),
    };
    triple.marked(prng, marks)
}

/// Most values are needy again. Nothing is single, so nothing merges.
fn axioms(prng: &mut Prng, signature: Signature) -> Vec<Pair> {
    let mut axioms = Vec::new();
    for attribute in 0..signature.attributes {
        if prng.chance(90) {
            axioms.push(axiom::necessary(NEEDY, attribute));
        }
        match prng.below(20) {
            0 => axioms.push(axiom::typing(NEEDY, attribute, OTHER)),
            1 => axioms.push(axiom::relates(attribute, NEEDY, NEEDY)),
            _ => axioms.push(axiom::typing(NEEDY, attribute, NEEDY)),
        }
    }
    prng.shuffle(&mut axioms);
    axioms
}

fn query(prng: &mut Prng, signature: Signature) -> Vec<Pair> {
    let mut tokens = vec![token::class(NEEDY)];
    for _ in 0..QUERY_STEPS / STRETCH {
        tokens.push(EMPTY);
        for _ in 0..STRETCH {
            // Back along an attribute nothing is needed, so few steps go there.
            let attribute = prng.word_below(signature.attributes);
            let step = if prng.chance(90) {
                token::forward(attribute)
            } else {
                token::backward(attribute)
            };
            tokens.extend([token::class(NEEDY), step]);
        }
        tokens.extend([REACHED, BOTH]);
    }
    tokens
}

/// A path along different attributes, since each then asks for new values.
fn view(prng: &mut Prng, signature: Signature) -> Vec<Pair> {
    let mut attributes: Vec<u16> = (0..signature.attributes).collect();
    prng.shuffle(&mut attributes);
    let mut tokens = vec![EMPTY];
    for &attribute in &attributes[..VIEW_STEPS] {
        tokens.extend([EVERYTHING, token::forward(attribute)]);
    }
    let last = tokens.len() - 2;
    tokens[last] = prng.one_of([token::class(NEEDY), token::class(OTHER)]);
    tokens.push(REACHED);
    tokens
}
