//! Loose constants: which constants may have one object in a state, and which the
//! library puts on one object. Every set of loose constants is tried.

use bikuvoa::layout::{self, fact, token, Pair, CLASS_FACTS, MAX_CONSTANTS};
use bikuvoa::{counterexample, legal, links_by_first, links_by_second, select};
use bikuvoa::{Attribute, BuildError, Class, Concept, Constant, Decision, Fact, Legality, Object};
use bikuvoa::{Path, Query, Refusal, Schema, SchemaBuilder, Signature, State, StateBuilder, View};
use std::collections::BTreeSet;

const STRAP: Class = Class(0);
const PERSON: Class = Class(1);
const WEARS: Attribute = Attribute(0);
const LENDS: Attribute = Attribute(1);

/// All constants; as in a loose word, a set of constants has bit k for constant k.
const ALL: u16 = (1 << MAX_CONSTANTS) - 1;

/// A person wears at most one thing.
fn schema(loose: u16) -> Schema {
    let signature = Signature {
        classes: 2,
        attributes: 2,
        constants: MAX_CONSTANTS,
        loose,
    };
    let mut builder = SchemaBuilder::numbered(signature).expect("few enough");
    builder.single(PERSON, WEARS).expect("an axiom");
    builder.build()
}

/// Whether the constants of a set may have one object: not if two of them are not
/// loose, whatever else is in the set.
fn may_be_one(loose: u16, set: u16) -> bool {
    (set & !loose).count_ones() < 2
}

fn members(set: u16) -> impl Iterator<Item = Constant> {
    let numbers = (0..MAX_CONSTANTS).filter(move |number| set >> number & 1 == 1);
    numbers.map(Constant)
}

/// Each choice of an object for each constant.
fn choices() -> impl Iterator<Item = Vec<u16>> {
    let choices = 0..MAX_CONSTANTS.pow(MAX_CONSTANTS.into());
    choices.map(|choice| {
        let digit = |number: u16| choice / MAX_CONSTANTS.pow(number.into()) % MAX_CONSTANTS;
        (0..MAX_CONSTANTS).map(digit).collect()
    })
}

/// The record of a state in which the constants have these objects.
fn named(objects: &[u16]) -> Vec<u16> {
    let names = (0..).zip(objects);
    let facts: Vec<Pair> = names.map(|(k, &object)| fact::name(k, object)).collect();
    layout::state(MAX_CONSTANTS, &facts)
}

/// The same by the builder.
fn built(schema: &Schema, objects: &[u16]) -> Result<State, BuildError> {
    let mut builder = StateBuilder::new(schema);
    for _ in 0..MAX_CONSTANTS {
        builder.object()?;
    }
    for (constant, &object) in (0..).map(Constant).zip(objects) {
        builder.name(constant, Object(object))?;
    }
    builder.build()
}

/// What each call that takes a state refuses this one as.
fn refusal(schema: &Schema, state: &[u16]) -> Option<Refusal> {
    let everything = layout::concept(&[token::EVERYTHING]);
    let (words, query, attribute) = (schema.words(), &everything, WEARS.0);
    let answers = [
        legal(words, state).err(),
        select(words, query, state).err(),
        counterexample(words, query, query, state).err(),
        links_by_first(words, query, state, attribute).err(),
        links_by_second(words, query, state, attribute).err(),
        State::from_words(schema, state.to_vec()).err(),
    ];
    assert_eq!(answers, [answers[0]; 6]);
    answers[0]
}

/// Whether the state is accepted; the only refusal is that of the constants.
fn is_accepted(schema: &Schema, state: &[u16]) -> bool {
    let refusal = refusal(schema, state);
    assert!(matches!(refusal, None | Some(Refusal::BAD_CONSTANTS)));
    refusal.is_none()
}

#[test]
fn states_in_which_constants_share_objects() {
    for loose in 0..=ALL {
        let schema = schema(loose);
        for objects in choices() {
            let here = |object: u16| {
                let constants = (0..MAX_CONSTANTS).zip(&objects);
                let here = constants.filter(|&(_, &named)| named == object);
                here.map(|(number, _)| 1 << number).sum()
            };
            let expected = (0..MAX_CONSTANTS).all(|object| may_be_one(loose, here(object)));
            let words = named(&objects);
            let accepted = is_accepted(&schema, &words);
            assert_eq!(accepted, expected, "{loose}, {objects:?}");
            match built(&schema, &objects) {
                Ok(state) => assert!(expected && state.words() == words),
                Err(BuildError::NamedByTwo(_)) => assert!(!expected, "{loose}, {objects:?}"),
                Err(error) => panic!("{error}"),
            }
        }
    }
}

/// A name is no class fact. A false count of those is told before two constants with
/// one object.
#[test]
fn names_are_no_class_facts() {
    for (loose, objects) in [(0, [0, 1, 2, 3]), (0, [2; 4]), (ALL, [2; 4])] {
        let schema = schema(loose);
        for class_facts in 1..=MAX_CONSTANTS + 1 {
            let mut words = named(&objects);
            words[CLASS_FACTS] = class_facts;
            let refused = Some(Refusal::BAD_CLASS_FACTS);
            assert_eq!(refusal(&schema, &words), refused, "{objects:?}");
        }
    }
}

#[test]
fn a_shared_object_is_selected_by_each_of_its_constants() {
    let schema = schema(0b0110);
    let state = built(&schema, &[2, 2, 1, 1]).expect("a state");
    for (set, expected) in [
        (0b0001, vec![2]),
        (0b0010, vec![2]),
        (0b0100, vec![1]),
        (0b0011, vec![2]),
        (0b1100, vec![1]),
        (0b0110, vec![]),
    ] {
        let query = Query::new(&schema, &at_once(set)).expect("a query");
        let expected = expected.into_iter().map(Object).collect();
        assert_eq!(schema.select(&query, &state), Ok(expected), "{set:b}");
    }
}

/// Loose or not, a constant has an object, and just one.
#[test]
fn a_loose_constant_has_one_object() {
    let schema = schema(ALL);
    let name = |Constant(number)| fact::name(number, 0);
    let names: Vec<Pair> = members(ALL).map(name).collect();
    assert!(is_accepted(&schema, &layout::state(2, &names)));
    for (place, Constant(number)) in members(ALL).enumerate() {
        let mut fewer = names.clone();
        fewer.remove(place);
        assert!(!is_accepted(&schema, &layout::state(2, &fewer)));
        let mut more = names.clone();
        more.insert(place + 1, fact::name(number, 1));
        assert!(!is_accepted(&schema, &layout::state(2, &more)));
    }

    let none = built(&schema, &[0]);
    assert_eq!(none, Err(BuildError::NamesNone(Constant(1))));
    let mut builder = StateBuilder::new(&schema);
    let [one, other] = [(); 2].map(|()| builder.object().expect("an object"));
    builder.name(Constant(0), one).expect("a name");
    let two = builder.name(Constant(0), other).map(|_| ());
    assert_eq!(two, Err(BuildError::NamesTwo(Constant(0))));
}

/// What is each constant of the set.
fn at_once(set: u16) -> Concept {
    let constants = members(set).map(Concept::constant);
    constants.fold(Concept::everything(), Concept::both)
}

/// A person who wears each constant of the set, which is one thing.
fn worn(set: u16) -> Concept {
    let wearing = |constant| Concept::reached(Path::empty().forward(WEARS, constant));
    let constants = members(set).map(Concept::constant).map(wearing);
    constants.fold(Concept::class(PERSON), Concept::both)
}

/// What leads to the first two constants of the set at once, from there to the
/// second and the third, and so on: all of them are one object by way of those
/// between.
fn one_by_one(set: u16) -> Concept {
    let constants: Vec<Concept> = members(set).map(Concept::constant).collect();
    let path = constants.windows(2).fold(Path::empty(), |path, two| {
        path.forward(LENDS, Concept::both(two[0].clone(), two[1].clone()))
    });
    Concept::reached(path)
}

/// How many objects the constants of the set have.
fn objects_of(set: u16, state: &State) -> usize {
    let objects = state.facts().filter_map(|fact| match fact {
        Fact::Name { constant, object } => Some(object).filter(|_| set >> constant.0 & 1 == 1),
        _ => None,
    });
    objects.collect::<BTreeSet<Object>>().len()
}

/// A query that makes the constants of a set one is empty in every legal state just
/// if two of them are not loose. Then any view holds it, and otherwise not one that
/// neither the query nor an axiom speaks of.
#[test]
fn queries_that_make_constants_one() {
    for (loose, set) in (0..=ALL).flat_map(|loose| (0..=ALL).map(move |set| (loose, set))) {
        let schema = schema(loose);
        let view = View::new(&schema, &Concept::class(STRAP)).expect("a view");
        for concept in [at_once(set), worn(set), one_by_one(set)] {
            let query = Query::new(&schema, &concept).expect("a query");
            let held = !may_be_one(loose, set);
            assert_eq!(schema.holds(&query, &view), Ok(held), "{loose}, {set}");
            let decision = schema.decide(&query, &view);
            let Decision::Open { state, object } = decision else {
                assert!(held && decision.is_held(), "{loose}, {set}: {decision:?}");
                continue;
            };
            assert!(!held, "{loose}, {set}");
            assert_eq!(objects_of(set, &state), set.count_ones().min(1) as usize);
            assert!(is_accepted(&schema, state.words()));
            assert_eq!(schema.legal(&state), Ok(Legality::Legal));
            let in_query = schema.select(&query, &state).expect("a selection");
            assert!(in_query.contains(&object), "{object:?} of {in_query:?}");
            let found = schema.counterexample(&query, &view, &state);
            assert!(matches!(found, Ok(Some(_))), "{found:?}");
        }
    }
}
