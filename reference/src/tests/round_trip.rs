//! Decoded forms survive being written and decoded again.

use super::random::{self, Alphabet};
use super::write;
use crate::marks::used;
use crate::records::{self, Place};
use crate::syntax::State;
use prng::Prng;

const ALPHABET: Alphabet = Alphabet {
    classes: 24,
    attributes: 8,
    constants: 4,
    marks: 4,
};

#[test]
fn schemas_and_concepts() {
    let mut prng = Prng::new(1);
    for _ in 0..300 {
        let axioms = prng.below(97);
        let schema = random::schema(&mut prng, ALPHABET, axioms);
        assert_eq!(records::schema(&write::schema(&schema)), Ok(schema.clone()));
        let concept = random::concept(&mut prng, ALPHABET, 16);
        let words = write::concept(&concept);
        assert_eq!(records::concept(&words, &schema, Place::Query), Ok(concept));
        let concept = random::concept(&mut prng, ALPHABET.unmarked(), 6);
        let words = write::concept(&concept);
        for place in [Place::Concept, Place::Query, Place::View] {
            let decoded = records::concept(&words, &schema, place);
            assert_eq!(decoded.as_ref(), Ok(&concept), "{place:?}");
        }
    }
}

#[test]
fn states() {
    let mut prng = Prng::new(2);
    for _ in 0..100 {
        let schema = random::schema(&mut prng, ALPHABET, 0);
        let objects = 5 + prng.below(476);
        let classes = (0..24).map(|_| (0..objects).filter(|_| prng.chance(5)).collect());
        let classes = classes.collect();
        let mut pair = || (prng.below(objects), prng.below(objects));
        let attributes = (0..8).map(|_| (0..20).map(|_| pair()).collect()).collect();
        let mut constants = vec![3, 1, 0, objects - 1];
        // Some of them share objects with others then.
        for &loose in &schema.loose {
            constants[loose] = prng.below(4);
        }
        let query = random::concept(&mut prng, ALPHABET, 16);
        let marks = used(&query);
        let state = State {
            objects,
            classes,
            attributes,
            constants,
            // Some of them share objects as well.
            marks: marks.iter().map(|&mark| (mark, prng.below(3))).collect(),
        };
        let words = write::state(&state);
        assert_eq!(records::state(&words, &schema, &marks), Ok(state));
    }
}
