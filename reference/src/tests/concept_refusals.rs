//! Refusals 3 to 6 and the concept's limits.

use super::write::{axioms_record, record, tokens_record};
use crate::records::{concept, schema, Place};

const PLACES: [Place; 3] = [Place::Concept, Place::Query, Place::View];

fn refusal_at(place: Place, words: &[u16]) -> u16 {
    let schema = schema(&axioms_record([2, 1, 1], &[])).expect("an alphabet without axioms");
    concept(words, &schema, place).err().unwrap_or(0)
}

fn refusal(words: &[u16]) -> u16 {
    refusal_at(Place::Concept, words)
}

fn tokens_refusal(tokens: &[(u16, u16)]) -> u16 {
    refusal(&tokens_record(tokens))
}

fn tokens_refusal_at(place: Place, tokens: &[(u16, u16)]) -> u16 {
    refusal_at(place, &tokens_record(tokens))
}

/// A path of the given number of steps, reached.
fn chain(steps: usize) -> Vec<(u16, u16)> {
    let mut tokens = vec![(5, 0)];
    for _ in 0..steps {
        tokens.extend([(2, 0), (6, 0)]);
    }
    tokens.push((8, 0));
    tokens
}

#[test]
fn short_records() {
    assert_eq!(refusal(&[]), 3);
    assert_eq!(refusal(&[1]), 3);
    assert_eq!(refusal(&[1, 0]), 3);
    assert_eq!(refusal(&[0, 0]), 3);
    assert_eq!(refusal(&[1, 0, 2]), 3);
    assert_eq!(refusal(&[1, 0, 2, 0]), 0);
    assert_eq!(refusal(&[1, 0, 2, 0, 0]), 3);
    assert_eq!(refusal(&[u16::MAX, 0]), 3);
}

#[test]
fn token_counts() {
    let mut even = vec![(5, 0), (8, 0)];
    let mut odd = vec![(2, 0)];
    for _ in 0..31 {
        even.extend([(2, 0), (4, 0)]);
    }
    for _ in 0..32 {
        odd.extend([(2, 0), (4, 0)]);
    }
    assert_eq!((even.len(), odd.len()), (64, 65));
    assert_eq!(tokens_refusal(&even), 0);
    assert_eq!(tokens_refusal(&odd), 3);
}

#[test]
fn sorts_and_arguments() {
    let bad = [
        (0, 0),
        (11, 0),
        (u16::MAX, 0),
        (1, 2),
        (1, u16::MAX),
        (2, 1),
        (3, 1),
        (4, 1),
        (5, 1),
        (6, 1),
        (7, 1),
        (8, 1),
        (9, 1),
    ];
    for place in PLACES {
        for token in bad {
            let refusal = tokens_refusal_at(place, &[(2, 0), token]);
            assert_eq!(refusal, 4, "{place:?}, {token:?}");
        }
        assert_eq!(tokens_refusal_at(place, &[(1, 1)]), 0);
        assert_eq!(tokens_refusal_at(place, &[(3, 0)]), 0);
    }
}

/// Whatever the schema declares: it has one constant and no fourth of anything.
#[test]
fn only_a_query_has_marks_and_of_these_four() {
    for mark in 0..4 {
        let alone = [(10, mark)];
        let inside = [(1, 0), (5, 0), (10, mark), (6, 0), (8, 0), (4, 0)];
        for tokens in [&alone[..], &inside] {
            assert_eq!(tokens_refusal_at(Place::Query, tokens), 0, "{tokens:?}");
            assert_eq!(tokens_refusal_at(Place::Concept, tokens), 4, "{tokens:?}");
            assert_eq!(tokens_refusal_at(Place::View, tokens), 4, "{tokens:?}");
        }
    }
    for mark in [4, 5, 10, u16::MAX] {
        for place in PLACES {
            assert_eq!(tokens_refusal_at(place, &[(10, mark)]), 4, "{mark}");
        }
    }
}

/// It takes nothing from the pile and puts a concept.
#[test]
fn a_mark_puts_a_concept() {
    let refusal = |tokens: &[_]| tokens_refusal_at(Place::Query, tokens);
    assert_eq!(refusal(&[(10, 0), (10, 1), (4, 0)]), 0);
    assert_eq!(refusal(&[(5, 0), (10, 0), (7, 0), (8, 0)]), 0);
    assert_eq!(refusal(&[(10, 0), (10, 1)]), 5);
    assert_eq!(refusal(&[(10, 0), (4, 0)]), 5);
    assert_eq!(refusal(&[(10, 0), (8, 0)]), 5);
    assert_eq!(refusal(&[(10, 0), (10, 0), (6, 0)]), 5);
    let one_step = [(5, 0), (10, 0), (6, 0), (8, 0)];
    assert_eq!(refusal_at(Place::Query, &record(&[4, 2], &one_step)), 6);
}

#[test]
fn piles() {
    let bad: [&[(u16, u16)]; 14] = [
        &[(4, 0)],
        &[(2, 0), (4, 0)],
        &[(5, 0), (2, 0), (4, 0)],
        &[(2, 0), (5, 0), (4, 0)],
        &[(2, 0), (6, 0)],
        &[(5, 0), (6, 0)],
        &[(2, 0), (2, 0), (6, 0), (8, 0)],
        &[(2, 0), (8, 0)],
        &[(8, 0)],
        &[(5, 0), (9, 0)],
        &[(2, 0), (5, 0), (9, 0)],
        &[(5, 0)],
        &[(2, 0), (2, 0)],
        &[(5, 0), (2, 0)],
    ];
    for tokens in bad {
        assert_eq!(tokens_refusal(tokens), 5, "{tokens:?}");
    }
}

#[test]
fn step_counts() {
    for (place, limit) in PLACES.into_iter().zip([16, 16, 6]) {
        assert_eq!(tokens_refusal_at(place, &chain(limit)), 0, "{place:?}");
        assert_eq!(tokens_refusal_at(place, &chain(limit + 1)), 6, "{place:?}");
    }
    assert_eq!(refusal(&[1, 1, 2, 0]), 6);
    assert_eq!(refusal(&record(&[4, 0], &chain(1))), 6);
    assert_eq!(refusal(&record(&[4, 2], &chain(1))), 6);
}

#[test]
fn backward_steps_count_as_well() {
    let mut tokens = chain(7);
    for token in tokens.iter_mut().filter(|token| token.0 == 6) {
        token.0 = 7;
    }
    assert_eq!(tokens_refusal(&tokens), 0);
    assert_eq!(tokens_refusal_at(Place::View, &tokens), 6);
}

#[test]
fn layout_comes_before_tokens() {
    assert_eq!(refusal(&[1, 0, 11, 0, 0]), 3);
    assert_eq!(refusal(&record(&[65, 0], &[(11, 0); 65])), 3);
}

#[test]
fn tokens_come_before_the_pile() {
    assert_eq!(tokens_refusal(&[(4, 0), (11, 0)]), 4);
    assert_eq!(tokens_refusal(&[(4, 0), (10, 0)]), 4);
    assert_eq!(tokens_refusal_at(Place::Query, &[(4, 0), (10, 4)]), 4);
    assert_eq!(tokens_refusal_at(Place::Query, &[(4, 0), (10, 3)]), 5);
    assert_eq!(tokens_refusal(&[(8, 0), (2, 0), (1, 2)]), 4);
}

#[test]
fn the_pile_comes_before_steps() {
    assert_eq!(refusal(&record(&[1, 3], &[(5, 0)])), 5);
    let mut tokens = chain(17);
    tokens.pop();
    assert_eq!(tokens_refusal(&tokens), 5);
}
