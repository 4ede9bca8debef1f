//! Names by hand, and names from the tree against a walk over the tokens.

use super::random::{self, Alphabet};
use super::write::{self, axioms_record, tokens_record};
use crate::entries::{check_concept, check_query, check_view};
use crate::names::{named, Named};
use prng::Prng;
use std::collections::BTreeSet;

const STRAP: u16 = 0;
const PERSON: u16 = 1;
const BOAT: u16 = 2;
const WEARS: u16 = 0;
const LENDS: u16 = 1;

/// The axioms mention every class and attribute, and there are as many constants
/// as classes: none of them is named for that.
fn schema() -> Vec<u16> {
    let relates = (5 * 256 + WEARS, PERSON * 256 + STRAP);
    let types = (2 * 256 + BOAT, LENDS * 256 + BOAT);
    axioms_record([3, 2, 3], &[relates, types])
}

fn sets(classes: &[u16], attributes: &[u16]) -> Named {
    let set = |numbers: &[u16]| numbers.iter().map(|&number| number.into()).collect();
    Named {
        classes: set(classes),
        attributes: set(attributes),
    }
}

/// A concept's tokens, its classes and its attributes.
type Row = (&'static [(u16, u16)], &'static [u16], &'static [u16]);

#[test]
fn by_hand() {
    let rows: [Row; 9] = [
        (&[(2, 0)], &[], &[]),
        (&[(3, 2)], &[], &[]),
        (&[(5, 0), (8, 0)], &[], &[]),
        (&[(1, BOAT)], &[BOAT], &[]),
        // A class that is named twice is named once.
        (&[(1, BOAT), (1, BOAT), (4, 0)], &[BOAT], &[]),
        (&[(1, BOAT), (1, STRAP), (4, 0)], &[STRAP, BOAT], &[]),
        // Forward, backward, and both ways along one attribute.
        (
            &[(5, 0), (1, PERSON), (6, LENDS), (8, 0)],
            &[PERSON],
            &[LENDS],
        ),
        (&[(5, 0), (3, 1), (7, WEARS), (8, 0)], &[], &[WEARS]),
        (
            &[
                (5, 0),
                (1, PERSON),
                (6, LENDS),
                (1, STRAP),
                (7, LENDS),
                (5, 0),
                (9, 0),
            ],
            &[STRAP, PERSON],
            &[LENDS],
        ),
    ];
    for (tokens, classes, attributes) in rows {
        let expected = Ok(sets(classes, attributes));
        let words = tokens_record(tokens);
        for check in [check_concept, check_query, check_view] {
            assert_eq!(check(&schema(), &words), expected, "{tokens:?}");
        }
    }
}

/// As many marks as classes, none of which is named.
#[test]
fn marks_are_no_names() {
    for mark in 0..3 {
        let words = tokens_record(&[(10, mark)]);
        assert_eq!(check_query(&schema(), &words), Ok(sets(&[], &[])));
        let tokens = [(1, BOAT), (5, 0), (10, mark), (6, LENDS), (8, 0), (4, 0)];
        let words = tokens_record(&tokens);
        let named = check_query(&schema(), &words);
        assert_eq!(named, Ok(sets(&[BOAT], &[LENDS])));
    }
}

/// Each path of a common object has its names, and so has a landing in a landing.
#[test]
fn in_every_part() {
    let inner = [(5, 0), (1, STRAP), (7, WEARS), (8, 0)];
    let mut tokens = vec![(1, PERSON), (5, 0)];
    tokens.extend(inner);
    tokens.extend([(6, LENDS), (5, 0), (1, BOAT), (6, LENDS), (9, 0), (4, 0)]);
    let all = sets(&[STRAP, PERSON, BOAT], &[WEARS, LENDS]);
    let words = tokens_record(&tokens);
    assert_eq!(check_concept(&schema(), &words), Ok(all.clone()));
    assert_eq!(check_query(&schema(), &words), Ok(all));
}

#[test]
fn a_query_may_have_16_steps_and_a_view_6() {
    let mut tokens = vec![(5, 0)];
    for steps in 1..=17 {
        tokens.extend([(2, 0), (6, WEARS)]);
        let mut reached = tokens.clone();
        reached.push((8, 0));
        let words = tokens_record(&reached);
        let within = |limit| {
            if steps <= limit {
                Ok(sets(&[], &[WEARS]))
            } else {
                Err(6)
            }
        };
        assert_eq!(check_concept(&schema(), &words), within(16));
        assert_eq!(check_query(&schema(), &words), within(16));
        assert_eq!(check_view(&schema(), &words), within(6));
    }
}

const ALPHABET: Alphabet = Alphabet {
    classes: 24,
    attributes: 8,
    constants: 4,
    marks: 4,
};

/// The arguments of the tokens of these sorts.
fn arguments(words: &[u16], sorts: &[u16]) -> BTreeSet<usize> {
    let (lefts, rights) = words[2..].split_at(usize::from(words[0]));
    let tokens = lefts.iter().zip(rights);
    let tokens = tokens.filter(|(sort, _)| sorts.contains(sort));
    tokens.map(|(_, &argument)| argument.into()).collect()
}

#[test]
fn trees_and_tokens_agree() {
    let mut prng = Prng::new(33);
    let mut met = Named::default();
    for _ in 0..2000 {
        let concept = random::concept(&mut prng, ALPHABET, 16);
        let words = write::concept(&concept);
        let named = named(&concept);
        assert_eq!(named.classes, arguments(&words, &[1]));
        assert_eq!(named.attributes, arguments(&words, &[6, 7]));
        met.classes.extend(named.classes);
        met.attributes.extend(named.attributes);
    }
    assert_eq!((met.classes.len(), met.attributes.len()), (24, 8));
}
