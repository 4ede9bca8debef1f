//! Marks: verdicts by hand, the objects that the written states have for marks,
//! and which calls take queries and states with them.

use bikuvoa::layout::{self, fact, token, Pair, Signature, CLASS_FACTS, MAX_MARKS};
use bikuvoa::{catalogue, check_concept, check_query, check_view, counterexample, decide};
use bikuvoa::{holds, legal, links_by_first, links_by_second, select};
use bikuvoa::{Attribute, Axiom, Class, Concept, Constant, Decision, Fact, Legality, Mark, Named};
use bikuvoa::{Object, Path, Query, Refusal, Schema, SchemaBuilder, State, View};
use std::collections::BTreeMap;

const A: Class = Class(0);
const B: Class = Class(1);
const P: Attribute = Attribute(0);
const Q: Attribute = Attribute(1);

/// An object of A has at most one value of P.
const SINGLE: Axiom = Axiom::Single {
    class: A,
    attribute: P,
};

fn schema(constants: u16, loose: u16, axioms: &[Axiom]) -> Schema {
    let signature = Signature {
        classes: 2,
        attributes: 2,
        constants,
        loose,
    };
    let mut builder = SchemaBuilder::numbered(signature).expect("few enough");
    for &axiom in axioms {
        builder.axiom(axiom).expect("an axiom");
    }
    builder.build()
}

/// No constants and no axioms.
fn free() -> Schema {
    schema(0, 0, &[])
}

fn mark(number: u16) -> Concept {
    Concept::mark(Mark(number))
}

fn constant(number: u16) -> Concept {
    Concept::constant(Constant(number))
}

fn class(class: Class) -> Concept {
    Concept::class(class)
}

fn both(left: Concept, right: Concept) -> Concept {
    Concept::both(left, right)
}

fn step(attribute: Attribute) -> Path {
    Path::empty().forward(attribute, Concept::everything())
}

/// What has a value of the attribute in the landing.
fn to(attribute: Attribute, landing: Concept) -> Concept {
    Concept::reached(Path::empty().forward(attribute, landing))
}

/// A value of P with the one mark, and a value of Q with the other.
fn values(one: u16, other: u16) -> Concept {
    both(to(P, mark(one)), to(Q, mark(other)))
}

/// What has one value of P and Q.
fn meeting() -> Concept {
    Concept::common(step(P), step(Q))
}

/// The objects of the marks in a state.
fn choices(state: &State) -> BTreeMap<Mark, Object> {
    let choices = state.facts().filter_map(|fact| match fact {
        Fact::Choice { mark, object } => Some((mark, object)),
        _ => None,
    });
    choices.collect()
}

/// An object in the query and outside the view, and its state.
struct Apart {
    state: State,
    object: Object,
}

impl Apart {
    fn chosen(&self, number: u16) -> Object {
        choices(&self.state)[&Mark(number)]
    }

    fn marks(&self) -> Vec<u16> {
        choices(&self.state).keys().map(|mark| mark.0).collect()
    }

    fn has(&self, fact: Fact) -> bool {
        self.state.facts().any(|known| known == fact)
    }

    fn has_pair(&self, attribute: Attribute, first: Object, second: Object) -> bool {
        self.has(Fact::Pair {
            attribute,
            first,
            second,
        })
    }
}

/// Nothing if the view holds the query. A written state is read as it stands and is
/// a counterexample.
fn apart(schema: &Schema, asked: &Concept, listed: &Concept) -> Option<Apart> {
    let query = Query::new(schema, asked).expect("a query");
    let view = View::new(schema, listed).expect("a view");
    let decision = schema.decide(&query, &view);
    assert_eq!(schema.holds(&query, &view), Ok(decision.is_held()));
    match decision {
        Decision::Held => None,
        Decision::Open { state, object } => {
            let read = State::from_words(schema, state.words().to_vec());
            assert_eq!(read.as_ref(), Ok(&state));
            let found = schema.counterexample(&query, &view, &state);
            assert!(found.is_ok_and(|found| found.is_some_and(|found| found <= object)));
            Some(Apart { state, object })
        }
        Decision::Refused(refusal) => panic!("{refusal} of {asked:?}, {listed:?}"),
    }
}

fn is_held(schema: &Schema, asked: &Concept, listed: &Concept) -> bool {
    apart(schema, asked, listed).is_none()
}

#[test]
fn places_with_one_mark_are_one_object() {
    for (one, other) in (0..MAX_MARKS).flat_map(|one| (0..MAX_MARKS).map(move |k| (one, k))) {
        let apart = apart(&free(), &values(one, other), &meeting());
        assert_eq!(apart.is_none(), one == other, "{one}, {other}");
        let Some(apart) = apart else { continue };
        assert_eq!(apart.marks(), [one.min(other), one.max(other)]);
        let (first, second) = (apart.chosen(one), apart.chosen(other));
        assert!(apart.has_pair(P, apart.object, first));
        assert!(apart.has_pair(Q, apart.object, second));
        // Were they one, the view would have the object.
        assert_ne!(first, second);
    }
}

#[test]
fn the_object_of_a_mark_has_what_each_place_asks() {
    let asked = |other| {
        let one = to(P, both(mark(2), class(A)));
        both(one, to(Q, both(class(B), mark(other))))
    };
    for listed in [to(P, class(B)), to(Q, class(A))] {
        assert!(is_held(&free(), &asked(2), &listed), "{listed:?}");
        let apart = apart(&free(), &asked(1), &listed).expect("an object apart");
        assert_eq!(apart.marks(), [1, 2], "{listed:?}");
        let (class, object) = (A, apart.chosen(2));
        assert!(apart.has(Fact::Member { class, object }));
    }
}

/// A mark may be the object that is asked for, or one between two steps of a path.
#[test]
fn a_mark_may_stand_anywhere() {
    let valued = |one, other| both(mark(one), to(P, mark(other)));
    let own_value = Concept::common(step(P), Path::empty());
    assert!(is_held(&free(), &valued(1, 1), &own_value));
    assert!(!is_held(&free(), &valued(1, 3), &own_value));

    let there_and_back = |one, other| {
        let path = Path::empty().forward(P, mark(one));
        Concept::reached(path.backward(Q, mark(other)))
    };
    let loop_of_q = to(P, Concept::common(step(Q), Path::empty()));
    assert!(is_held(&free(), &there_and_back(0, 0), &loop_of_q));
    assert!(!is_held(&free(), &there_and_back(0, 2), &loop_of_q));

    for number in 0..MAX_MARKS {
        let apart = apart(&free(), &mark(number), &class(A)).expect("an object apart");
        let only = BTreeMap::from([(Mark(number), apart.object)]);
        assert_eq!(choices(&apart.state), only);
    }
}

/// A mark that stands at one place asks for nothing. Different marks tell no objects
/// apart, so two of them at two places do not either.
#[test]
fn marks_at_one_place_are_like_everything() {
    let all = Concept::everything;
    let listed = [
        all(),
        class(A),
        to(P, all()),
        both(to(P, all()), to(Q, all())),
        meeting(),
        Concept::common(step(P), Path::empty()),
    ];
    for (marked, plain, expected) in [
        (mark(0), all(), [true, false, false, false, false, false]),
        (
            to(P, mark(3)),
            to(P, all()),
            [true, false, true, false, false, false],
        ),
        (
            values(1, 0),
            both(to(P, all()), to(Q, all())),
            [true, false, true, true, false, false],
        ),
    ] {
        for asked in [marked, plain] {
            let held = listed.each_ref().map(|view| is_held(&free(), &asked, view));
            assert_eq!(held, expected, "{asked:?}");
        }
    }
}

/// A value of P in B and one that is a value of Q too: the same where there is but
/// one value of P, and the marks meet in it.
#[test]
fn marks_may_meet_in_one_object() {
    let in_b = to(P, both(mark(0), class(B)));
    let asked = both(class(A), both(in_b, values(1, 1)));
    let listed = Concept::common(Path::empty().forward(P, class(B)), step(Q));
    let single = schema(0, 0, &[SINGLE]);
    assert!(is_held(&single, &asked, &listed));
    let met = apart(&single, &asked, &class(B)).expect("an object apart");
    assert_eq!(met.marks(), [0, 1]);
    assert_eq!(met.chosen(0), met.chosen(1));
    let two = apart(&free(), &asked, &listed).expect("an object apart");
    assert_eq!(two.marks(), [0, 1]);
    assert_ne!(two.chosen(0), two.chosen(1));
}

/// Two constants under one mark are one object. If neither is loose there is no such
/// object, and any view holds the query.
#[test]
fn constants_under_one_mark_are_one() {
    let asked = |other| {
        let one = to(P, both(mark(0), constant(0)));
        both(one, to(Q, both(mark(other), constant(1))))
    };
    for loose in 0b00..=0b11 {
        let schema = schema(2, loose, &[]);
        for listed in [class(A), constant(0), to(Q, class(B))] {
            let held = is_held(&schema, &asked(0), &listed);
            assert_eq!(held, loose == 0, "{loose}, {listed:?}");
            assert!(!is_held(&schema, &asked(1), &listed), "{loose}, {listed:?}");
        }
        if let Some(apart) = apart(&schema, &asked(0), &class(A)) {
            let object = apart.chosen(0);
            for constant in [0, 1].map(Constant) {
                assert!(apart.has(Fact::Name { constant, object }), "{loose}");
            }
        }
    }
}

/// A query without marks has a state without objects for them.
#[test]
fn no_mark_has_an_object_for_nothing() {
    let apart = apart(&free(), &to(P, class(A)), &class(B)).expect("an object apart");
    assert_eq!(apart.marks(), []);
    assert_eq!(free().legal(&apart.state), Ok(Legality::Legal));
}

fn words(tokens: &[Pair]) -> Vec<u16> {
    layout::concept(tokens)
}

/// What a call is refused as, or 0.
fn number<T>(answer: Result<T, Refusal>) -> u16 {
    answer.err().map_or(0, Refusal::number)
}

fn decided(schema: &[u16], query: &[u16], view: &[u16]) -> u16 {
    match decide(schema, query, view) {
        Decision::Refused(refusal) => refusal.number(),
        _ => 0,
    }
}

/// What the calls that take a query without marks are refused as, and those that
/// take a view.
fn as_plain(schema: &[u16], concept: &[u16], state: &[u16]) -> u16 {
    let everything = words(&[token::EVERYTHING]);
    let answers = [
        number(check_concept(schema, concept)),
        number(select(schema, concept, state)),
        number(links_by_first(schema, concept, state, P.0)),
        number(links_by_second(schema, concept, state, P.0)),
        number(check_view(schema, concept)),
        number(catalogue(schema, &layout::catalogue(&[concept]))),
        decided(schema, &everything, concept),
        number(holds(schema, &everything, concept)),
        number(counterexample(schema, &everything, concept, state)),
    ];
    assert_eq!(answers, [answers[0]; 9], "{concept:?}");
    answers[0]
}

/// What the calls that take a query with marks are refused as.
fn as_query(schema: &[u16], query: &[u16]) -> u16 {
    let everything = words(&[token::EVERYTHING]);
    let answers = [
        number(check_query(schema, query)),
        decided(schema, query, &everything),
        number(holds(schema, query, &everything)),
    ];
    assert_eq!(answers, [answers[0]; 3], "{query:?}");
    answers[0]
}

#[test]
fn a_mark_stands_in_a_query_alone() {
    let schema = free();
    let (schema, state) = (schema.words(), layout::state(1, &[]));
    let view = words(&[token::EVERYTHING]);
    for k in (0..20).chain([256, u16::MAX - 1, u16::MAX]) {
        let marked = words(&[token::mark(k)]);
        let chosen = layout::state(1, &[fact::choice(k, 0)]);
        let expected = if k < MAX_MARKS { 0 } else { 4 };
        assert_eq!(as_plain(schema, &marked, &state), 4);
        assert_eq!(as_query(schema, &marked), expected);
        let found = counterexample(schema, &marked, &view, &chosen);
        assert_eq!(number(found), expected);
    }

    // A mark where none may be comes before the other faults of a concept, and
    // elsewhere it is none of them.
    let two = words(&[token::mark(0), token::mark(0)]);
    assert_eq!(as_plain(schema, &two, &[]), 4);
    assert_eq!(as_query(schema, &two), 5);
    let step = [token::EMPTY, token::mark(1), token::forward(P.0)];
    let uncounted = layout::CONCEPT.record(&[], &[&step[..], &[token::REACHED]].concat());
    assert_eq!(as_plain(schema, &uncounted, &[]), 4);
    assert_eq!(as_query(schema, &uncounted), 6);
}

#[test]
fn built_queries_with_marks_are_refused_elsewhere() {
    let schema = free();
    let query = Query::new(&schema, &values(0, 3)).expect("a query");
    let state = State::from_words(&schema, layout::state(1, &[])).expect("a state");
    let refused = Refusal::BAD_TOKEN;
    assert_eq!(schema.check_concept(&query), Err(refused));
    assert_eq!(schema.select(&query, &state), Err(refused));
    assert_eq!(schema.links_by_first(&query, &state, P), Err(refused));
    assert_eq!(schema.links_by_second(&query, &state, P), Err(refused));
}

/// Marks are no names, and what stands beside them is told.
#[test]
fn marks_are_no_names() {
    let schema = free();
    for (concept, class_set, attribute_set, count) in [
        (mark(3), 0b00, 0b00, 0),
        (values(0, 1), 0b00, 0b11, 0),
        (both(mark(1), to(Q, both(class(B), mark(0)))), 0b10, 0b10, 1),
    ] {
        let query = Query::new(&schema, &concept).expect("a query");
        let named = Named {
            class_set,
            attribute_set,
            count,
        };
        assert_eq!(schema.check_query(&query), Ok(named), "{concept:?}");
    }
}

/// Object 0 has object 1 as its value of P and of Q, and the marks are these.
fn state_of(choices: &[Pair]) -> Vec<u16> {
    let pairs = [fact::pair(P.0, 0, 1), fact::pair(Q.0, 0, 1)];
    layout::state(2, &[&pairs[..], choices].concat())
}

#[test]
fn the_state_says_which_objects_the_marks_are() {
    let schema = free();
    let query = Query::new(&schema, &values(0, 2)).expect("a query");
    let view = View::new(&schema, &class(A)).expect("a view");
    let found = |choices: &[Pair]| {
        let state = state_of(choices);
        counterexample(schema.words(), query.words(), view.words(), &state)
    };
    let chosen = |one, other| [fact::choice(0, one), fact::choice(2, other)];
    assert_eq!(found(&chosen(1, 1)), Ok(Some(Object(0))));
    for (one, other) in [(0, 0), (0, 1), (1, 0)] {
        assert_eq!(found(&chosen(one, other)), Ok(None), "{one}, {other}");
    }

    let [zero, two] = chosen(1, 1);
    let (one, three) = (fact::choice(1, 1), fact::choice(3, 1));
    for (expected, choices) in [
        // A mark that the query uses has an object, and just one.
        (10, vec![]),
        (10, vec![zero]),
        (10, vec![two]),
        (10, vec![fact::choice(0, 0), zero, two]),
        (10, vec![zero, fact::choice(2, 0), two]),
        // Another has none.
        (8, vec![zero, one, two]),
        (8, vec![zero, two, three]),
        (8, vec![one]),
        // The object is there, and the right word is 0.
        (8, vec![zero, fact::choice(2, 2)]),
        (8, vec![zero, (two.0, 1)]),
        (9, vec![two, zero]),
        (9, vec![zero, zero, two]),
    ] {
        assert_eq!(number(found(&choices)), expected, "{choices:?}");
    }
}

/// The object of a mark is no class fact. A false count of those is told before a mark
/// without an object or with several, and after the other faults.
#[test]
fn the_facts_of_marks_are_no_class_facts() {
    let schema = free();
    let query = words(&[token::mark(0), token::mark(2), token::BOTH]);
    let view = words(&[token::EVERYTHING]);
    let (zero, one, two) = (fact::choice(0, 0), fact::choice(1, 0), fact::choice(2, 0));
    for (expected, class_facts, choices) in [
        (0, 0, vec![zero, two]),
        (15, 1, vec![zero, two]),
        (15, 2, vec![zero, two]),
        (15, 4, vec![zero, two]),
        (15, 1, vec![]),
        (15, 1, vec![two]),
        (15, 3, vec![zero, fact::choice(0, 1), two]),
        (10, 0, vec![zero, fact::choice(0, 1), two]),
        (8, 3, vec![zero, one, two]),
        (9, 2, vec![two, zero]),
    ] {
        let mut state = state_of(&choices);
        state[CLASS_FACTS] = class_facts;
        let found = counterexample(schema.words(), &query, &view, &state);
        assert_eq!(number(found), expected, "{class_facts}, {choices:?}");
    }
}

/// A mark is used wherever it stands, even where it asks for nothing.
#[test]
fn a_used_mark_needs_an_object() {
    let schema = free();
    let view = words(&[token::class(A.0)]);
    for tokens in [
        vec![token::mark(1)],
        vec![token::EVERYTHING, token::mark(1), token::BOTH],
        vec![
            token::EMPTY,
            token::EMPTY,
            token::mark(1),
            token::forward(P.0),
            token::EVERYTHING,
            token::backward(P.0),
            token::COMMON,
        ],
    ] {
        let query = words(&tokens);
        let found = |choices: &[Pair]| {
            let state = state_of(choices);
            counterexample(schema.words(), &query, &view, &state)
        };
        assert_eq!(number(found(&[])), 10, "{tokens:?}");
        assert_eq!(number(found(&[fact::choice(0, 1)])), 8, "{tokens:?}");
        assert!(found(&[fact::choice(1, 1)]).is_ok_and(|found| found.is_some()));
    }
}

/// Only a counterexample looks at the objects of marks, and only of those that its
/// query uses.
#[test]
fn states_with_marks_are_refused_elsewhere() {
    let schema = free();
    let everything = words(&[token::EVERYTHING]);
    for k in 0..MAX_MARKS {
        let state = state_of(&[fact::choice(k, 0)]);
        let (schema, query, state) = (schema.words(), &everything, &state);
        assert_eq!(number(legal(schema, state)), 8);
        assert_eq!(number(select(schema, query, state)), 8);
        assert_eq!(number(links_by_first(schema, query, state, P.0)), 8);
        assert_eq!(number(links_by_second(schema, query, state, P.0)), 8);
        assert_eq!(number(counterexample(schema, query, query, state)), 8);
    }
    let state = state_of(&[]);
    assert_eq!(legal(schema.words(), &state), Ok(Legality::Legal));

    // Read by itself, a state is one for a query that uses its marks.
    let read = |choices: &[Pair]| State::from_words(&schema, state_of(choices));
    let all: Vec<Pair> = (0..MAX_MARKS).map(|k| fact::choice(k, k % 2)).collect();
    for choices in [&all[..], &all[1..], &all[..2], &all[3..], &[]] {
        assert!(read(choices).is_ok(), "{choices:?}");
    }
    for (expected, choices) in [
        (8, vec![fact::choice(1, 2)]),
        (8, vec![(all[1].0, 1)]),
        (8, vec![fact::choice(MAX_MARKS, 0)]),
        (9, vec![all[1], all[0]]),
        (10, vec![fact::choice(3, 0), fact::choice(3, 1)]),
    ] {
        assert_eq!(number(read(&choices)), expected, "{choices:?}");
    }
}
