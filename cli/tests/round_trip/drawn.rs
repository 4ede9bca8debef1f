//! Random records, and deep ones.

use super::{reading, records, there_and_back};
use bik::model::{File, Name};
use bik::source::Span;
use bik::{decode, print};
use bikuvoa::check_query;
use bikuvoa::layout::token::{self, BOTH, COMMON, EMPTY, EVERYTHING, REACHED};
use bikuvoa::layout::{self, Pair, Signature, MAX_MARKS, MAX_TOKENS};
use std::collections::HashSet;
use tools::call::Entry;
use tools::draw::catalogue::Catalogue;
use tools::draw::state::{large, state};
use tools::draw::triple::{Marks, Triple};
use tools::prng::Prng;

const ALL: Signature = Signature {
    classes: 24,
    attributes: 8,
    constants: 4,
    loose: 10,
};

/// Schemas, queries, views and states, with and without marks and loose constants.
#[test]
fn triples_with_states() {
    let (mut marked, mut loose, mut shared) = (0, 0, 0);
    for seed in 0..3000 {
        let mut prng = Prng::new(seed);
        let marks = Marks::draw(&mut prng);
        let triple = match prng.below(10) {
            0..=1 => Triple::of_all_names(&mut prng, marks),
            2..=4 => Triple::followed(&mut prng, marks),
            _ => Triple::random(&mut prng, marks),
        };
        let (schema, query) = triple.decoded();
        let drawn = state(&mut prng, triple.signature, &schema, &query);
        let with = drawn.words_for(Entry::Counterexample);
        let without = drawn.words_for(Entry::Legal);
        marked += usize::from(with != without);
        loose += usize::from(triple.signature.loose != 0);
        let text = there_and_back(&[
            triple.schema_words(),
            layout::concept(&triple.query),
            layout::catalogue(&[layout::concept(&triple.view)]),
            with,
            without,
        ]);
        shared += usize::from(text.contains("where"));
    }
    assert!(
        marked > 1000 && loose > 500 && shared > 500,
        "{marked} {loose} {shared}"
    );
}

/// The same with names: for inverses, for some marks, and in states for the query.
#[test]
fn named_triples() {
    let (mut kept, mut numbered) = (0, 0);
    for seed in 0..2000 {
        let mut prng = Prng::new(seed);
        let triple = Triple::random(&mut prng, Marks::With);
        let (schema, query) = triple.decoded();
        let drawn = state(&mut prng, triple.signature, &schema, &query);
        let others = vec![
            ("query", layout::concept(&triple.query)),
            ("state", drawn.words_for(Entry::Counterexample)),
        ];
        let file = decode::file(("schema.bin", triple.schema_words()), others);
        let mut file = file.unwrap_or_else(|fault| panic!("{fault}"));
        name(&mut prng, &mut file);
        let text = print::file(&file);
        let read = reading(&text);
        assert_eq!(records(&read), records(&file), "{text}");
        assert_eq!(print::file(&read), text);
        kept += usize::from(text.contains("?mark"));
        numbered += usize::from(!text.contains("?mark"));
    }
    assert!(kept > 200 && numbered > 500, "{kept} {numbered}");
}

fn name(prng: &mut Prng, file: &mut File) {
    for (number, attribute) in file.names.attributes.iter_mut().enumerate() {
        let text = format!("inverse{number}");
        let span = Span::default();
        attribute.inverse = prng.chance(50).then_some(Name { text, span });
    }
    for (name, mark) in file.queries.iter_mut().flat_map(|query| &mut query.marks) {
        if prng.chance(80) {
            *name = format!("mark{}", mark.0);
        }
    }
    for state in &mut file.states {
        state.query = Some(0);
    }
}

/// States of up to as many objects and facts as there may be.
#[test]
fn large_states() {
    for seed in 0..30 {
        let mut prng = Prng::new(seed);
        let triple = Triple::of_all_names(&mut prng, Marks::With);
        let (schema, query) = triple.decoded();
        let drawn = large(&mut prng, triple.signature, &schema, &query);
        there_and_back(&[
            triple.schema_words(),
            drawn.words_for(Entry::Counterexample),
            drawn.words_for(Entry::Legal),
        ]);
    }
}

#[test]
fn catalogues() {
    for seed in 0..1000 {
        let catalogue = Catalogue::random(&mut Prng::new(seed));
        there_and_back(&[catalogue.schema_words(), catalogue.words()]);
    }
}

/// Concepts whose tokens come in any order that is accepted, of all sorts.
#[test]
fn concepts_of_any_tokens() {
    let schema = layout::schema(ALL, &[]);
    let mut seen = HashSet::new();
    let mut sorts = HashSet::new();
    for seed in 0.. {
        let tokens = any_tokens(&mut Prng::new(seed));
        let query = layout::concept(&tokens);
        if check_query(&schema, &query).is_ok() && seen.insert(query.clone()) {
            sorts.extend(tokens.into_iter().map(|(sort, _)| sort));
            there_and_back(&[schema.clone(), query]);
        }
        if seen.len() == 5000 {
            break;
        }
    }
    assert_eq!(sorts.len(), 10);
}

/// Each token is one that finds what it takes, up to a drawn length; then the pile is
/// brought down to one concept. There may be too many steps.
fn any_tokens(prng: &mut Prng) -> Vec<Pair> {
    let length = prng.between(1, MAX_TOKENS);
    let joining = prng.between(10, 90);
    let (mut tokens, mut pile) = (Vec::new(), Vec::new());
    loop {
        let room = tokens.len() + 2 * pile.len() < length;
        let finished = pile == [Item::Concept];
        if !room && finished {
            return tokens;
        }
        let token = match *pile.as_slice() {
            _ if room && !prng.chance(joining) => any_leaf(prng),
            [.., Item::Path, Item::Path] if prng.chance(50) => COMMON,
            [.., Item::Path] => REACHED,
            [.., Item::Concept, Item::Concept] => BOTH,
            [.., Item::Path, Item::Concept] => any_step(prng),
            _ => any_leaf(prng),
        };
        put(&mut pile, token);
        tokens.push(token);
    }
}

#[derive(Clone, Copy, PartialEq)]
enum Item {
    Concept,
    Path,
}

fn put(pile: &mut Vec<Item>, token: Pair) {
    let (taken, item) = match token {
        EMPTY => (0, Item::Path),
        REACHED => (1, Item::Concept),
        BOTH | COMMON => (2, Item::Concept),
        step if token::is_step(step) => (2, Item::Path),
        _ => (0, Item::Concept),
    };
    pile.truncate(pile.len() - taken);
    pile.push(item);
}

fn any_leaf(prng: &mut Prng) -> Pair {
    match prng.below(10) {
        0..=2 => EMPTY,
        3 => EVERYTHING,
        4 => token::constant(prng.word_below(ALL.constants)),
        5..=6 => token::mark(prng.word_below(MAX_MARKS)),
        _ => token::class(prng.word_below(ALL.classes)),
    }
}

fn any_step(prng: &mut Prng) -> Pair {
    let attribute = prng.word_below(ALL.attributes);
    prng.one_of([token::forward(attribute), token::backward(attribute)])
}

/// As many brackets in each other as a concept can have.
#[test]
fn deep_concepts() {
    let schema = layout::schema(ALL, &[]);
    let leaf = token::class(0);
    let joined = [vec![leaf; 32], vec![BOTH; 31]].concat();
    let step = [token::forward(0), REACHED];
    let landing = [vec![EMPTY; 16], vec![leaf], step.repeat(16)].concat();
    let equal = [token::backward(7), EMPTY, COMMON];
    let shared = [vec![EMPTY; 15], vec![leaf], equal.repeat(15)].concat();
    for tokens in [joined, landing, shared] {
        assert!(tokens.len() <= MAX_TOKENS);
        let text = there_and_back(&[schema.clone(), layout::concept(&tokens)]);
        assert!(text.matches('[').count() >= 14, "{text}");
    }
}
