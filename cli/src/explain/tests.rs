//! Tests of the parts of an explanation, on random states and on the largest.

use super::facts::{Facts, Link};
use super::question::Question;
use super::shrink::{shrink, Shrunk};
use super::witness::Witness;
use crate::decode;
use bikuvoa::layout::{self, axiom, fact, token, Pair, Signature, MAX_FACTS, MAX_OBJECTS};
use bikuvoa::{Decision, Fact, Object, Schema, State};
use tools::call::Entry;
use tools::draw::state;
use tools::draw::triple::{Marks, Triple};
use tools::draw::wide;
use tools::prng::Prng;

/// A state of the words, which are accepted.
fn facts(schema: &[u16], words: Vec<u16>) -> Facts {
    let schema = Schema::from_words(schema.to_vec()).expect("a schema");
    Facts::of(&State::from_words(&schema, words).expect("a state"))
}

/// The triple's question, without its axioms if every state is to be legal.
fn question(triple: &Triple) -> Question {
    Question {
        schema: triple.schema_words(),
        query: layout::concept(&triple.query),
        view: layout::concept(&triple.view),
    }
}

#[test]
fn a_witness_is_found_exactly_if_the_object_is_selected() {
    let mut prng = Prng::new(1);
    let (mut found, mut missed) = (0, 0);
    for _ in 0..2000 {
        let triple = Triple::random(&mut prng, Marks::Without);
        let Question { schema, query, .. } = question(&triple);
        let (decoded, asked) = triple.decoded();
        let drawn = state::state(&mut prng, triple.signature, &decoded, &asked);
        if drawn.objects > 60 {
            continue;
        }
        let state = facts(&schema, drawn.words_for(Entry::Select));
        let selected = bikuvoa::select(&schema, &query, &state.words()).expect("accepted");
        let concept = decode::concept(&query).expect("a concept");
        for object in (0..state.objects).map(Object) {
            let pairs = Witness::of(&state).pairs(&concept, object);
            assert_eq!(pairs.is_some(), selected.contains(&object));
            missed += usize::from(pairs.is_none());
            let Some(pairs) = pairs else { continue };
            found += 1;
            // With no other pairs it is still selected.
            let mut fewer = state.clone();
            fewer.facts.retain(|&fact| match fact {
                Fact::Pair {
                    attribute,
                    first,
                    second,
                } => pairs.contains(&Link {
                    attribute,
                    first,
                    second,
                }),
                _ => true,
            });
            let selected = bikuvoa::select(&schema, &query, &fewer.words()).expect("accepted");
            assert!(selected.contains(&object));
        }
    }
    assert!(found > 1000 && missed > 1000, "{found} and {missed}");
}

#[test]
fn marks_are_the_objects_that_the_state_chooses() {
    let mut prng = Prng::new(2);
    let mut found = 0;
    for _ in 0..2000 {
        let mut triple = Triple::random(&mut prng, Marks::With);
        triple.axioms.clear();
        let (decoded, asked) = triple.decoded();
        let drawn = state::state(&mut prng, triple.signature, &decoded, &asked);
        if drawn.objects > 60 || triple.signature.classes == layout::MAX_CLASSES {
            continue;
        }
        // No object is in a further class, and without axioms each state is legal.
        let spare = token::class(triple.signature.classes);
        triple.signature.classes += 1;
        triple.view = vec![spare];
        let question = question(&triple);
        let state = facts(&question.schema, drawn.words_for(Entry::Counterexample));
        let concept = decode::concept(&question.query).expect("a concept");
        let witness = Witness::of(&state);
        let mut objects = (0..state.objects).map(Object);
        let lowest = objects.find(|&object| witness.pairs(&concept, object).is_some());
        assert_eq!(lowest, question.shown_by(&state.words()));
        found += usize::from(lowest.is_some());
    }
    assert!(found > 200, "{found}");
}

/// That the library says so of the state, and of none with one object or fact less.
fn assert_smallest(question: &Question, shrunk: &Shrunk) {
    let facts = &shrunk.facts;
    assert_eq!(question.shown_by(&facts.words()), Some(shrunk.object));
    for place in 0..facts.facts.len() {
        let mut fewer = facts.clone();
        fewer.facts.remove(place);
        assert_eq!(question.shown_by(&fewer.words()), None);
    }
    for left_out in 0..facts.objects {
        let fewer = facts.numbered(facts.objects - 1, |Object(number)| {
            (number != left_out).then(|| Object(number - u16::from(number > left_out)))
        });
        assert_eq!(question.shown_by(&fewer.words()), None);
    }
}

#[test]
fn nothing_can_be_left_out_of_a_shrunk_state() {
    let mut prng = Prng::new(3);
    let mut smaller = 0;
    for _ in 0..600 {
        let marks = Marks::draw(&mut prng);
        let triple = Triple::random(&mut prng, marks);
        let question = question(&triple);
        let Decision::Open { state, object } = question.decide() else {
            continue;
        };
        let before = Facts::of(&state);
        let shrunk = shrink(&question, before.clone(), object, &mut |_| {});
        assert_smallest(&question, &shrunk);
        smaller += usize::from(shrunk.facts != before);
    }
    assert!(smaller > 20, "{smaller}");
}

#[test]
fn wide_states_are_shrunk_in_few_calls() {
    let mut prng = Prng::new(4);
    let mut largest = (0, 0);
    for _ in 0..12 {
        let question = question(&wide::triple(&mut prng, Marks::Without));
        let Decision::Open { state, object } = question.decide() else {
            continue;
        };
        let facts = Facts::of(&state);
        let items = usize::from(facts.objects) + facts.facts.len();
        let shrunk = shrink(&question, facts, object, &mut |_| {});
        assert!(shrunk.calls <= 4 * items, "{} of {items}", shrunk.calls);
        largest = largest.max((items, shrunk.calls));
    }
    assert!(largest.0 > 2000, "{largest:?}");
}

/// As many objects and facts as there may be: each object is in all classes and has
/// the next as its value of every attribute.
fn largest(axioms: &[Pair]) -> (Question, Facts) {
    let signature = Signature {
        classes: 24,
        attributes: 8,
        ..Signature::default()
    };
    let its_own = [token::EVERYTHING, token::forward(7), token::EMPTY];
    let question = Question {
        schema: layout::schema(signature, axioms),
        query: layout::concept(&[token::class(0)]),
        view: layout::concept(&[&[token::EMPTY], &its_own[..], &[token::COMMON]].concat()),
    };
    let mut facts: Vec<Pair> = Vec::new();
    for object in 0..MAX_OBJECTS {
        facts.extend((0..24).map(|class| fact::member(class, object)));
        let next = (object + 1) % MAX_OBJECTS;
        facts.extend((0..8).map(|attribute| fact::pair(attribute, object, next)));
    }
    let further = (0..MAX_OBJECTS).map(|object| fact::pair(1, object, (object + 2) % MAX_OBJECTS));
    facts.extend(further.take(MAX_FACTS - facts.len()));
    facts.sort_unstable();
    let state = self::facts(&question.schema, layout::state(MAX_OBJECTS, &facts));
    (question, state)
}

/// Shrinks the largest state to so many objects and facts, in at most so many calls.
fn assert_shrunk(axioms: &[Pair], objects: u16, facts: usize, calls: usize) {
    let (question, state) = largest(axioms);
    assert_eq!(state.facts.len(), MAX_FACTS);
    let object = question.shown_by(&state.words()).expect("a counterexample");
    let mut lines = 0;
    let shrunk = shrink(&question, state, object, &mut |_| lines += 1);
    assert_eq!(shrunk.facts.objects, objects);
    assert_eq!(shrunk.facts.facts.len(), facts);
    assert!(shrunk.calls <= calls, "{} calls", shrunk.calls);
    assert_eq!(lines, shrunk.calls / 1000);
    assert_smallest(&question, &shrunk);
}

#[test]
fn the_largest_state_is_shrunk_to_one_object() {
    assert_shrunk(&[], 1, 1, 60);
}

/// Each object needs the next, which is in all classes as soon as it is in one.
#[test]
fn what_the_largest_state_needs_is_found_in_few_calls() {
    let circle = (0..24).map(|class| axiom::subclass(class, (class + 1) % 24));
    let needs = [axiom::necessary(0, 0), axiom::typing(0, 0, 0)];
    let axioms: Vec<Pair> = circle.chain(needs).collect();
    assert_shrunk(&axioms, 480, 480 * 25, 25_000);
}

/// A class can only be left out after those below it, in whatever order they stand.
#[test]
fn classes_are_left_out_one_below_the_other() {
    let mut prng = Prng::new(5);
    let mut order: Vec<u16> = (1..24).collect();
    for _ in 0..3 {
        let mut above = 0;
        let mut axioms = vec![axiom::necessary(0, 0), axiom::typing(0, 0, 0)];
        for &class in &order {
            axioms.push(axiom::subclass(class, above));
            above = class;
        }
        assert_shrunk(&axioms, 480, 480 * 2, 20_000);
        prng.shuffle(&mut order);
    }
}
