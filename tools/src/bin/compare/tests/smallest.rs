//! What is left of a difference once it is made small.

use super::spoilt::{Answer, Spoilt};
use super::triple_difference;
use super::{catalogue_difference, damage_difference, name_difference, state_difference};
use crate::schemas::{meets, shares};
use crate::shrink::shrink;
use crate::verify::{verify, Difference};
use bikuvoa::layout::token::{BOTH, EVERYTHING, MARK};
use bikuvoa::layout::{self, fact, Layout, Signature};
use bikuvoa::layout::{CLASS_FACTS, CONCEPT, MAX_VIEWS, SCHEMA, STATE};
use tools::call::{Call, Entry};
use tools::draw::triple::Triple;

type Spoil = fn(&mut Answer);

fn smallest(spoil: Spoil, found: Difference) -> Call {
    shrink(found.call, &|call| verify(&Spoilt(spoil), call).is_err())
}

/// How many entries the record has, whose length must fit them.
fn entries(layout: &Layout, words: &[u16]) -> usize {
    layout.entries(words).expect("a record").count()
}

#[test]
fn of_a_wrong_verdict() {
    let held_to_all: Spoil = |answer| {
        if answer.is_of(Entry::Decide) {
            answer.out.lent.copy_from_slice(&answer.before);
            answer.out.outs[0] = 0;
        }
    };
    let yes_to_all: Spoil = |answer| {
        if answer.is_of(Entry::Holds) {
            answer.out.outs[0] = 1;
        }
    };
    for spoil in [held_to_all, yes_to_all] {
        let found = triple_difference(&Spoilt(spoil));
        let call = smallest(spoil, *found);
        // No axiom, a query of one token, and a view of at most one step.
        assert_eq!(entries(&SCHEMA, &call.schema), 0);
        assert_eq!(entries(&CONCEPT, &call.query), 1);
        assert!(entries(&CONCEPT, &call.view) <= 4, "{:?}", call.view);
    }
}

/// Takes constants as different where they must be one object.
#[test]
fn of_a_wrong_clash() {
    let never_shared: Spoil = |answer| {
        if answer.is_of(Entry::Decide) && answer.out.outs[0] > 0 && shares(answer.out.lent) {
            answer.out.lent.copy_from_slice(&answer.before);
            answer.out.outs[0] = 0;
        }
    };
    let found = triple_difference(&Spoilt(never_shared));
    let call = smallest(never_shared, *found);
    // No axiom, two constants, of which one is loose, and a query for little more
    // than both at once.
    let signature = Signature::of(&call.schema).expect("a schema");
    assert_eq!(entries(&SCHEMA, &call.schema), 0);
    assert_eq!((signature.constants, signature.loose), (2, 1));
    assert!(entries(&CONCEPT, &call.query) <= 10, "{:?}", call.query);
    assert!(entries(&CONCEPT, &call.view) <= 6, "{:?}", call.view);
}

/// Takes different marks as different objects.
#[test]
fn of_a_wrong_mark() {
    let kept_apart: Spoil = |answer| {
        if answer.is_open() && meets(answer.out.lent) {
            answer.out.lent.copy_from_slice(&answer.before);
            answer.out.outs[0] = 0;
        }
    };
    let found = triple_difference(&Spoilt(kept_apart));
    let call = smallest(kept_apart, *found);
    // No axiom, and a query for the two lowest marks at once.
    assert_eq!(entries(&SCHEMA, &call.schema), 0);
    let mut tokens: Vec<_> = CONCEPT.entries(&call.query).expect("a query").collect();
    tokens.sort_unstable();
    assert_eq!(tokens, [BOTH, (MARK, 0), (MARK, 1)]);
    assert!(entries(&CONCEPT, &call.view) <= 4, "{:?}", call.view);
}

/// Finds no counterexample where a mark is used.
#[test]
fn of_a_wrong_choice() {
    let never_found: Spoil = |answer| {
        let facts = STATE.entries(&answer.call.state).into_iter().flatten();
        let mut facts = facts.filter(|&entry| fact::kind(entry) >= fact::MARK_KINDS);
        if answer.is_of(Entry::Counterexample) && facts.next().is_some() {
            answer.out.outs[0] = 0;
        }
    };
    let found = state_difference(&Spoilt(never_found));
    let call = smallest(never_found, *found);
    // No axiom, the lowest mark, and its object alone beside the names.
    let signature = Signature::of(&call.schema).expect("a schema");
    assert_eq!(entries(&SCHEMA, &call.schema), 0);
    assert_eq!(call.query, layout::concept(&[(MARK, 0)]));
    let names = usize::from(signature.constants);
    assert_eq!(entries(&STATE, &call.state), names + 1);
}

#[test]
fn of_a_wrong_judgement() {
    let legal_to_all: Spoil = |answer| {
        if answer.entry == Entry::Legal && answer.number == 0 {
            answer.out.outs[0] = 0;
        }
    };
    let found = state_difference(&Spoilt(legal_to_all));
    let call = smallest(legal_to_all, *found);
    // One axiom and at most the three facts that break it.
    assert_eq!(entries(&SCHEMA, &call.schema), 1);
    assert!(entries(&STATE, &call.state) <= 3, "{:?}", call.state);
}

/// A right count of class facts stays right, though false ones are not seen either.
#[test]
fn of_a_wrong_judgement_where_no_count_is_seen() {
    let blind: Spoil = |answer| match answer.number {
        0 if answer.entry == Entry::Legal => answer.out.outs[0] = 0,
        15 => answer.number = 0,
        _ => {}
    };
    let found = state_difference(&Spoilt(blind));
    let call = smallest(blind, *found);
    // As without the second fault.
    assert_eq!(entries(&SCHEMA, &call.schema), 1);
    let facts: Vec<_> = STATE.entries(&call.state).expect("a state").collect();
    assert!(facts.len() <= 3, "{facts:?}");
    let objects = layout::objects(&call.state).expect("a state");
    assert_eq!(call.state, layout::state(objects, &facts));
}

/// Accepts any count of class facts.
#[test]
fn of_an_unseen_count() {
    let unseen: Spoil = |answer| {
        if answer.number == 15 {
            answer.number = 0;
        }
    };
    let found = damage_difference(&Spoilt(unseen));
    let call = smallest(unseen, *found);
    // No axiom, and one class fact is counted where there is none.
    assert_eq!(entries(&SCHEMA, &call.schema), 0);
    let mut state = layout::state(0, &[]);
    state[CLASS_FACTS] = 1;
    assert_eq!(call.state, state);
}

/// A call with three facts of classes and three of pairs, of which it counts so many.
fn counting(class_facts: u16) -> Call {
    let signature = Signature {
        classes: 2,
        attributes: 1,
        ..Signature::default()
    };
    let facts = [
        fact::member(0, 0),
        fact::member(0, 1),
        fact::member(1, 0),
        fact::pair(0, 0, 0),
        fact::pair(0, 0, 1),
        fact::pair(0, 1, 1),
    ];
    let mut state = layout::state(2, &facts);
    state[CLASS_FACTS] = class_facts;
    let triple = Triple {
        signature,
        axioms: Vec::new(),
        query: Vec::new(),
        view: Vec::new(),
    };
    triple.call(Entry::Legal, state, 0)
}

/// Accepts a count of no facts, or of all of them.
#[test]
fn of_an_unseen_count_of_none_or_all() {
    let of_none: Spoil = |answer| {
        let told = layout::class_facts(&answer.call.state);
        if answer.number == 15 && told == Some(0) {
            answer.number = 0;
        }
    };
    let of_all: Spoil = |answer| {
        let state = &answer.call.state;
        if answer.number == 15 && state[CLASS_FACTS] == state[STATE.counter] {
            answer.number = 0;
        }
    };
    for (spoil, told, is_of_class) in [(of_none, 0, true), (of_all, 6, false)] {
        let found = verify(&Spoilt(spoil), &counting(told));
        let call = smallest(spoil, *found.expect_err("a wrong refusal"));
        // One fact, which is counted if it is not of a class and is not if it is.
        let facts: Vec<_> = STATE.entries(&call.state).expect("a state").collect();
        assert_eq!(facts.len(), 1, "{facts:?}");
        assert_eq!(fact::is_class_fact(facts[0]), is_of_class);
        assert_eq!(call.state[CLASS_FACTS], u16::from(!is_of_class));
    }
}

#[test]
fn of_a_wrong_count() {
    let all_pairs: Spoil = |answer| {
        if answer.is_of(Entry::LinksBySecond) {
            answer.out.outs[0] = answer.pairs().len() as u64;
        }
    };
    let found = state_difference(&Spoilt(all_pairs));
    let call = smallest(all_pairs, *found);
    // No axiom, a concept of at most one step, and one pair beside the names.
    let signature = Signature::of(&call.schema).expect("a schema");
    assert_eq!(entries(&SCHEMA, &call.schema), 0);
    assert!(entries(&CONCEPT, &call.query) <= 4, "{:?}", call.query);
    let names = usize::from(signature.constants);
    assert_eq!(entries(&STATE, &call.state), names + 1);
}

#[test]
fn of_a_wrong_attribute() {
    let never_refused: Spoil = |answer| {
        if answer.number == 12 {
            answer.number = 0;
        }
    };
    let found = state_difference(&Spoilt(never_refused));
    assert!(found.call.attribute > 0);
    let call = smallest(never_refused, *found);
    // No attribute at all is declared.
    let signature = Signature::of(&call.schema).expect("a schema");
    assert_eq!((signature.attributes, call.attribute), (0, 0));
}

#[test]
fn of_a_wrong_name() {
    let counted_tokens: Spoil = |answer| {
        if answer.is_of(Entry::CheckView) {
            answer.out.outs[0] = answer.tokens() as u64;
        }
    };
    let found = name_difference(&Spoilt(counted_tokens));
    assert!(entries(&CONCEPT, &found.call.view) > 1);
    let call = smallest(counted_tokens, *found);
    // Nothing at all is declared, and a view of one token has all objects.
    assert_eq!(call.schema, layout::schema(Signature::default(), &[]));
    assert_eq!(call.view, layout::concept(&[EVERYTHING]));
}

#[test]
fn of_a_wrong_order() {
    let all_held: Spoil = |answer| {
        if answer.is_of(Entry::Catalogue) {
            let views = usize::from(answer.call.catalogue[0]);
            answer.out.lent[..views].fill(((1u32 << views) - 1) as u16);
        }
    };
    let found = catalogue_difference(&Spoilt(all_held));
    let call = smallest(all_held, *found);
    // No axiom, two views of at most one step, and no word to spare.
    assert_eq!(entries(&SCHEMA, &call.schema), 0);
    let views = layout::views(&call.catalogue).expect("a catalogue");
    let tokens = views.iter().map(|view| entries(&CONCEPT, view));
    let tokens: Vec<usize> = tokens.collect();
    assert_eq!(tokens.len(), 2);
    assert!(tokens.iter().sum::<usize>() <= 5, "{tokens:?}");
    assert_eq!((call.lent, call.order), (MAX_VIEWS, MAX_VIEWS));
}

#[test]
fn of_a_wrong_refusal() {
    let nine_for_ten: Spoil = |answer| {
        if answer.number == 10 {
            answer.number = 9;
        }
    };
    let found = damage_difference(&Spoilt(nine_for_ten));
    let call = smallest(nine_for_ten, *found);
    // One constant or one mark, no axiom, and no object.
    let signature = Signature::of(&call.schema).expect("a schema");
    let is_marked = call.query == layout::concept(&[(MARK, 0)]);
    assert_eq!(signature.constants + u16::from(is_marked), 1);
    assert_eq!(entries(&SCHEMA, &call.schema), 0);
    assert_eq!(call.state, layout::state(0, &[]));
}
