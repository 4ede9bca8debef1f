//! Catalogues by hand, refusal 13, and the order against all orders there are.

use super::random::{self, Alphabet};
use super::write::{axioms_record, catalogue_record, tokens_record};
use crate::catalogue::{groups, held, is_narrower, order, Group, Held};
use crate::entries::catalogue;
use crate::records;
use crate::syntax::Concept;
use prng::Prng;
use std::collections::BTreeSet;

const PERSON: u16 = 0;
const ROWER: u16 = 1;
const STRAP: u16 = 2;
const WEARS: u16 = 0;

const EVERYTHING: [u16; 4] = [1, 0, 2, 0];

/// A rower is a person and wears something; only persons wear, and only straps.
fn schema() -> Vec<u16> {
    let includes = (256 + ROWER, PERSON);
    let needs = (3 * 256 + ROWER, WEARS);
    let relates = (5 * 256 + WEARS, PERSON * 256 + STRAP);
    axioms_record([3, 1, 2], &[includes, needs, relates])
}

/// The rows and the order up to the last word that is not 0.
fn answer(views: &[&[(u16, u16)]]) -> (Vec<u16>, Vec<u16>) {
    let views: Vec<Vec<u16>> = views.iter().map(|tokens| tokens_record(tokens)).collect();
    let (mut rows, mut order) = ([9; 16], [9; 16]);
    let groups = catalogue(&schema(), &catalogue_record(&views), &mut rows, &mut order);
    let written = |words: &[u16]| {
        let last = words.iter().rposition(|&word| word != 0);
        words[..last.map_or(0, |last| last + 1)].to_vec()
    };
    let (rows, order) = (written(&rows), written(&order));
    assert_eq!(groups, Ok(order.len() as u64));
    (rows, order)
}

/// Persons twice, rowers, straps, and wearers twice.
#[test]
fn by_hand() {
    let persons = [(1, PERSON)];
    let rowers = [(1, ROWER)];
    let straps = [(1, STRAP)];
    let wearers = [(5, 0), (1, STRAP), (6, WEARS), (8, 0)];
    let persons_again = [(2, 0), (1, PERSON), (4, 0)];
    let wearers_again = [(5, 0), (2, 0), (6, WEARS), (8, 0), (1, PERSON), (4, 0)];
    let (rows, order) = answer(&[
        &persons,
        &rowers,
        &straps,
        &wearers,
        &persons_again,
        &wearers_again,
    ]);
    let persons = 0b01_0001;
    let wearers = 0b10_1000;
    let wide = persons + wearers;
    let rowers = wide + 0b10;
    assert_eq!(rows, [persons, rowers, 0b100, wide, persons, wide]);
    // The straps may come at any time; they do when 2 is the lowest that may.
    assert_eq!(order, [0b10, 0b100, wearers, persons]);
}

/// Different constants have no object in common: what is empty is held by all.
#[test]
fn an_empty_view_is_narrowest() {
    let views: [&[(u16, u16)]; 3] = [&[(2, 0)], &[(3, 1)], &[(3, 0), (3, 1), (4, 0)]];
    let (rows, order) = answer(&views);
    assert_eq!(rows, [0b001, 0b011, 0b111]);
    assert_eq!(order, [0b100, 0b010, 0b001]);
}

#[test]
fn one_view_and_sixteen() {
    let everything: &[(u16, u16)] = &[(2, 0)];
    assert_eq!(answer(&[everything]), (vec![1], vec![1]));
    let all = u16::MAX;
    assert_eq!(answer(&[everything; 16]), (vec![all; 16], vec![all]));
}

fn refusal(words: &[u16]) -> u16 {
    let answer = catalogue(&schema(), words, &mut [0; 16], &mut [0; 16]);
    answer.err().unwrap_or(0)
}

#[test]
fn counts_of_views() {
    assert_eq!(refusal(&[]), 13);
    assert_eq!(refusal(&[0]), 13);
    assert_eq!(refusal(&catalogue_record(&[EVERYTHING; 16])), 0);
    assert_eq!(refusal(&catalogue_record(&[EVERYTHING; 17])), 13);
    // Fewer words than there are lengths.
    assert_eq!(refusal(&[1]), 13);
    assert_eq!(refusal(&[3, 0, 0]), 13);
    assert_eq!(refusal(&[u16::MAX, 0]), 13);
}

/// Two views of four words, with other lengths.
fn with_lengths(one: u16, other: u16) -> Vec<u16> {
    let mut words = catalogue_record(&[EVERYTHING; 2]);
    words[1..3].copy_from_slice(&[one, other]);
    words
}

#[test]
fn lengths_of_views() {
    assert_eq!(refusal(&with_lengths(4, 4)), 0);
    for (one, other) in [(4, 5), (4, 3), (5, 4), (0, 0), (65535, 65535)] {
        assert_eq!(refusal(&with_lengths(one, other)), 13, "{one}, {other}");
    }
    // 65,536 too many.
    for (one, other) in [(65535, 9), (9, 65535), (32772, 32772)] {
        assert_eq!(refusal(&with_lengths(one, other)), 13, "{one}, {other}");
    }
    // As many as there are, but not those of the records.
    for (one, other) in [(5, 3), (3, 5), (0, 8), (8, 0)] {
        assert_eq!(refusal(&with_lengths(one, other)), 3, "{one}, {other}");
    }
    // More than a word can say in all is no fault by itself.
    let long = catalogue_record(&[vec![1; 40_000], vec![1; 40_000]]);
    assert_eq!(refusal(&long), 3);
    let mut longer = with_lengths(4, 4);
    longer.push(0);
    assert_eq!(refusal(&longer), 13);
}

#[test]
fn a_view_has_at_most_6_steps() {
    let stepping = |steps| {
        let mut tokens = vec![(5, 0)];
        tokens.extend([(2, 0), (6, WEARS)].repeat(steps));
        tokens.push((8, 0));
        refusal(&catalogue_record(&[tokens_record(&tokens)]))
    };
    assert_eq!((stepping(6), stepping(7)), (0, 6));
}

#[test]
fn a_view_has_no_marks() {
    for mark in 0..5 {
        let marked = tokens_record(&[(10, mark)]);
        assert_eq!(refusal(&catalogue_record(&[&marked])), 4);
        let views = [EVERYTHING.to_vec(), marked];
        assert_eq!(refusal(&catalogue_record(&views)), 4);
    }
}

const ALPHABET: Alphabet = Alphabet {
    classes: 2,
    attributes: 1,
    constants: 1,
    marks: 0,
};

/// Views that are often held by each other: some ask for less than others.
fn views(prng: &mut Prng, count: usize) -> Vec<Concept> {
    let mut views: Vec<Concept> = Vec::new();
    while views.len() < count {
        let view = match views.len() {
            drawn @ 1.. if prng.chance(70) => {
                let from = views[prng.below(drawn)].clone();
                random::weakened(prng, ALPHABET, &from, 3)
            }
            _ => random::concept(prng, ALPHABET, 3),
        };
        views.push(view);
    }
    views
}

/// Random views under random axioms.
fn drawn(prng: &mut Prng, most: usize) -> (usize, Held) {
    let schema = random::schema(prng, ALPHABET, 3);
    let count = 1 + prng.below(most);
    let views = views(prng, count);
    (count, held(&schema, &views))
}

#[test]
fn a_view_is_held_by_itself_and_by_what_holds_what_holds_it() {
    let mut prng = Prng::new(41);
    let mut chains = 0;
    for _ in 0..200 {
        let (views, held) = drawn(&mut prng, 7);
        assert!((0..views).all(|view| held.contains(&(view, view))));
        for &(one, other) in &held {
            for &(_, third) in held.iter().filter(|&&(first, _)| first == other) {
                assert!(held.contains(&(one, third)));
                chains += usize::from(one != other && other != third && third != one);
            }
        }
    }
    assert!(chains > 200, "{chains}");
}

/// All sequences of the groups.
fn sequences(groups: &BTreeSet<Group>) -> Vec<Vec<Group>> {
    if groups.is_empty() {
        return vec![Vec::new()];
    }
    let mut all = Vec::new();
    for last in groups {
        let mut others = groups.clone();
        others.remove(last);
        for mut sequence in sequences(&others) {
            sequence.push(last.clone());
            all.push(sequence);
        }
    }
    all
}

/// Taking the lowest that may come each time gives, of all sequences in which
/// narrower groups come first, the one whose lowest views come first in the
/// order of a dictionary.
#[test]
fn the_order_is_the_first_of_all_that_may_be() {
    let mut prng = Prng::new(42);
    let (mut together, mut moved) = (0, 0);
    for _ in 0..150 {
        let (views, held) = drawn(&mut prng, 6);
        let groups = groups(views, &held);
        let may_be = |sequence: &&Vec<Group>| {
            let is_late = |place: usize| {
                let (group, mut later) = (&sequence[place], sequence[place..].iter());
                later.any(|other| is_narrower(&held, other, group))
            };
            !(0..sequence.len()).any(is_late)
        };
        let lowest = |sequence: &&Vec<Group>| -> Vec<usize> {
            sequence
                .iter()
                .filter_map(|group| group.first().copied())
                .collect()
        };
        let all = sequences(&groups);
        let first = all.iter().filter(may_be).min_by_key(lowest);
        let order = order(views, &held);
        assert_eq!(Some(&order), first);
        let members: usize = order.iter().map(Group::len).sum();
        assert_eq!(members, views);
        together += usize::from(order.len() < views);
        moved += usize::from(!order.is_sorted());
    }
    assert!(together > 30 && moved > 30, "{together}, {moved}");
}

#[test]
fn views_stand_one_after_the_other() {
    let words = [3, 0, 1, 2, 7, 8, 9];
    let views = records::catalogue(&words).expect("a layout");
    assert_eq!(views, [&[][..], &[7], &[8, 9]]);
}
