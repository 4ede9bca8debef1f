//! Each limit: what is exactly at it is built and accepted, and one more is
//! turned down by the builder and by the library alike.

use bikuvoa::layout::{self, axiom, fact, token, Pair};
use bikuvoa::layout::{CLASS_FACTS, DECIDE_WORDS, MAX_FACTS, MAX_OBJECTS};
use bikuvoa::layout::{MAX_ATTRIBUTES, MAX_CLASSES, MAX_CONSTANTS, MAX_MARKS};
use bikuvoa::layout::{MAX_AXIOMS, MAX_TOKENS};
use bikuvoa::layout::{QUERY_STEPS, VIEW_STEPS};
use bikuvoa::{check_concept, check_query, check_view, raw, Mark};
use bikuvoa::{Attribute, BuildError, Class, Concept, Constant, Item, Named, Object, Path, Query};
use bikuvoa::{Legality, Refusal, Schema, SchemaBuilder, Signature, State, StateBuilder, View};

const LARGEST: Signature = Signature {
    classes: MAX_CLASSES,
    attributes: MAX_ATTRIBUTES,
    constants: MAX_CONSTANTS,
    loose: 0,
};

fn too_many<T>(what: Item, limit: usize) -> Result<T, BuildError> {
    Err(BuildError::TooMany { what, limit })
}

fn refused_as<T>(answer: Result<T, Refusal>) -> Option<u16> {
    answer.err().map(Refusal::number)
}

fn largest() -> Schema {
    let builder = SchemaBuilder::numbered(LARGEST);
    builder.expect("what may be declared").build()
}

#[test]
fn the_numbers_are_the_formats() {
    assert_eq!(MAX_FACTS, 15_384);
    assert_eq!(DECIDE_WORDS, 30_771);
    assert_eq!((fact::MARK_KINDS, fact::FACT_KINDS), (36, 40));
}

#[test]
fn declared_names() {
    let mut builder = SchemaBuilder::numbered(LARGEST).expect("what may be declared");
    let schema = builder.build();
    assert_eq!(schema.signature(), LARGEST);
    assert!(Schema::from_words(schema.words().to_vec()).is_ok());

    let (limit, what) = (MAX_CLASSES.into(), Item::Class);
    assert_eq!(builder.class("one more"), too_many(what, limit));
    let (limit, what) = (MAX_ATTRIBUTES.into(), Item::Attribute);
    assert_eq!(builder.attribute("one more"), too_many(what, limit));
    let (limit, what) = (MAX_CONSTANTS.into(), Item::Constant);
    assert_eq!(builder.constant("one more"), too_many(what, limit));
    for above in 0..3 {
        let mut signature = LARGEST;
        match above {
            0 => signature.classes += 1,
            1 => signature.attributes += 1,
            _ => signature.constants += 1,
        }
        assert!(SchemaBuilder::numbered(signature).is_err());
        let words = layout::schema(signature, &[]);
        assert_eq!(refused_as(Schema::from_words(words)), Some(1));
    }
}

/// Every loose word with every number of constants: all that it marks must be
/// declared.
#[test]
fn loose_constants() {
    for constants in 0..=MAX_CONSTANTS {
        for loose in 0..=u16::MAX {
            let signature = Signature {
                constants,
                loose,
                ..Signature::default()
            };
            let words = layout::schema(signature, &[]);
            let read = Schema::from_words(words.clone()).map(|_| ());
            let built = SchemaBuilder::numbered(signature).map(|builder| builder.build());
            match (constants..16).find(|number| loose >> number & 1 == 1) {
                None => {
                    assert_eq!(read, Ok(()));
                    assert_eq!(built.expect("a schema").words(), words);
                }
                Some(number) => {
                    assert_eq!(read, Err(Refusal::BAD_LOOSE));
                    let what = Item::Constant;
                    assert_eq!(built, Err(BuildError::Undeclared { what, number }));
                }
            }
        }
    }
}

/// Marks are not declared: the empty schema has them all.
#[test]
fn marks() {
    let schema = SchemaBuilder::new().build();
    let mut builder = StateBuilder::new(&schema);
    let object = builder.object().expect("an object");
    for mark in (0..MAX_MARKS).map(Mark) {
        let query = Query::new(&schema, &Concept::mark(mark)).expect("a query");
        let read = Query::from_words(&schema, query.words().to_vec());
        assert_eq!(read, Ok(query));
        builder.choose(mark, object).expect("a fact");
        let state = builder.build().expect("a state");
        let read = State::from_words(&schema, state.words().to_vec());
        assert_eq!(read, Ok(state));
    }

    for number in [MAX_MARKS, MAX_MARKS + 1, 16, 256, u16::MAX] {
        let what = Item::Mark;
        let unknown = BuildError::Undeclared { what, number };
        let query = Query::new(&schema, &Concept::mark(Mark(number)));
        assert_eq!(query, Err(unknown.clone()));
        let words = layout::concept(&[token::mark(number)]);
        assert_eq!(refused_as(Query::from_words(&schema, words)), Some(4));
        let chosen = builder.choose(Mark(number), object).map(|_| ());
        assert_eq!(chosen, Err(unknown));
    }
    let words = layout::state(1, &[fact::choice(MAX_MARKS, 0)]);
    assert_eq!(refused_as(State::from_words(&schema, words)), Some(8));
}

#[test]
fn axioms() {
    let mut builder = SchemaBuilder::numbered(LARGEST).expect("what may be declared");
    let last = Class(MAX_CLASSES - 1);
    for _ in 0..MAX_AXIOMS {
        builder.subclass(last, last).expect("an axiom");
    }
    let schema = builder.build();
    assert_eq!(schema.axioms().count(), MAX_AXIOMS);
    assert!(Schema::from_words(schema.words().to_vec()).is_ok());
    let one_more = builder.subclass(last, last).map(|_| ());
    assert_eq!(one_more, too_many(Item::Axiom, MAX_AXIOMS));
    let axioms = vec![axiom::subclass(0, 0); MAX_AXIOMS + 1];
    let words = layout::schema(LARGEST, &axioms);
    assert_eq!(refused_as(Schema::from_words(words)), Some(1));
}

#[test]
fn tokens() {
    let schema = largest();
    // An even number of tokens: two for the start and two more for each class.
    let mut concept = Concept::reached(Path::empty());
    while concept.tokens().len() < MAX_TOKENS {
        concept = Concept::both(concept, Concept::class(Class(0)));
    }
    assert_eq!(concept.tokens().len(), MAX_TOKENS);
    let query = Query::new(&schema, &concept).expect("a query");
    assert!(Query::from_words(&schema, query.words().to_vec()).is_ok());
    let view = View::new(&schema, &concept).expect("a view");
    assert!(View::from_words(&schema, view.words().to_vec()).is_ok());

    let mut odd = Concept::everything();
    while odd.tokens().len() < MAX_TOKENS {
        odd = Concept::both(odd, Concept::class(Class(0)));
    }
    assert_eq!(odd.tokens().len(), MAX_TOKENS + 1);
    let query = Query::new(&schema, &odd);
    assert_eq!(query, too_many(Item::Token, MAX_TOKENS));
    let view = View::new(&schema, &odd);
    assert_eq!(view, too_many(Item::Token, MAX_TOKENS));
    let entries: Vec<Pair> = odd.tokens().iter().map(|token| token.words()).collect();
    let words = layout::concept(&entries);
    let (query, view) = (words.clone(), words);
    assert_eq!(refused_as(Query::from_words(&schema, query)), Some(3));
    assert_eq!(refused_as(View::from_words(&schema, view)), Some(3));
}

/// A path of so many steps.
fn stepping(steps: usize) -> Concept {
    let last = Attribute(MAX_ATTRIBUTES - 1);
    let path = (0..steps).fold(Path::empty(), |path, step| {
        if step % 2 == 0 {
            path.forward(last, Concept::everything())
        } else {
            path.backward(last, Concept::everything())
        }
    });
    Concept::reached(path)
}

fn step_words(steps: usize) -> Vec<u16> {
    let entries: Vec<Pair> = stepping(steps).tokens().iter().map(|t| t.words()).collect();
    layout::concept(&entries)
}

#[test]
fn steps() {
    let schema = largest();
    assert!(Query::new(&schema, &stepping(QUERY_STEPS)).is_ok());
    assert!(Query::from_words(&schema, step_words(QUERY_STEPS)).is_ok());
    let query = Query::new(&schema, &stepping(QUERY_STEPS + 1));
    assert_eq!(query, too_many(Item::Step, QUERY_STEPS));
    let query = Query::from_words(&schema, step_words(QUERY_STEPS + 1));
    assert_eq!(refused_as(query), Some(6));

    assert!(View::new(&schema, &stepping(VIEW_STEPS)).is_ok());
    assert!(View::from_words(&schema, step_words(VIEW_STEPS)).is_ok());
    let view = View::new(&schema, &stepping(VIEW_STEPS + 1));
    assert_eq!(view, too_many(Item::Step, VIEW_STEPS));
    let view = View::from_words(&schema, step_words(VIEW_STEPS + 1));
    assert_eq!(refused_as(view), Some(6));
}

/// What is told of a concept that names just these.
fn named(classes: &[u16], attributes: &[u16]) -> Named {
    let set = |numbers: &[u16]| numbers.iter().map(|number| 1 << number).sum();
    Named {
        class_set: set(classes),
        attribute_set: set(attributes),
        count: classes.len() as u64,
    }
}

/// Each class and each attribute by itself, and the first that is not declared.
#[test]
fn names() {
    let schema = layout::schema(LARGEST, &[]);
    for check in [check_concept, check_query, check_view] {
        let of_class = |number| check(&schema, &layout::concept(&[token::class(number)]));
        for class in 0..MAX_CLASSES {
            assert_eq!(of_class(class), Ok(named(&[class], &[])));
        }
        assert_eq!(refused_as(of_class(MAX_CLASSES)), Some(4));
        for step in [token::forward, token::backward] {
            let of_attribute = |number| {
                let landing = token::EVERYTHING;
                let tokens = [token::EMPTY, landing, step(number), token::REACHED];
                check(&schema, &layout::concept(&tokens))
            };
            for attribute in 0..MAX_ATTRIBUTES {
                assert_eq!(of_attribute(attribute), Ok(named(&[], &[attribute])));
            }
            assert_eq!(refused_as(of_attribute(MAX_ATTRIBUTES)), Some(4));
        }
    }
}

#[test]
fn steps_of_each_check() {
    let schema = layout::schema(LARGEST, &[]);
    let last = named(&[], &[MAX_ATTRIBUTES - 1]);
    for steps in 1..=QUERY_STEPS + 1 {
        let words = step_words(steps);
        let within = |limit| {
            if steps <= limit {
                Ok(last)
            } else {
                Err(Refusal::BAD_STEPS)
            }
        };
        assert_eq!(check_concept(&schema, &words), within(QUERY_STEPS));
        assert_eq!(check_query(&schema, &words), within(QUERY_STEPS));
        assert_eq!(check_view(&schema, &words), within(VIEW_STEPS));
    }
}

/// As many tokens as there may be, which name all classes, and all attributes as
/// far as there are steps for them.
#[test]
fn all_names() {
    let schema = largest();
    let numbers: Vec<u16> = (0..MAX_CLASSES).collect();
    let mut classes = numbers.iter().rev().cycle().map(|&number| Class(number));
    for steps in [VIEW_STEPS, QUERY_STEPS] {
        let mut leaf = || Concept::class(classes.next().expect("a circle of classes"));
        let attributes = (0..MAX_ATTRIBUTES).cycle().take(steps);
        let path = attributes.fold(Path::empty(), |path, number| {
            path.forward(Attribute(number), leaf())
        });
        let mut concept = Concept::reached(path);
        while concept.tokens().len() < MAX_TOKENS {
            concept = Concept::both(concept, leaf());
        }
        assert_eq!(concept.tokens().len(), MAX_TOKENS);
        let stepped = steps.min(MAX_ATTRIBUTES.into());
        let expected = Ok(named(&numbers, &numbers[..stepped]));
        let query = Query::new(&schema, &concept).expect("a query");
        assert_eq!(schema.check_concept(&query), expected);
        assert_eq!(schema.check_query(&query), expected);
        let as_view = check_view(schema.words(), query.words());
        if steps == VIEW_STEPS {
            assert_eq!(as_view, expected);
        } else {
            assert_eq!(refused_as(as_view), Some(6));
        }
    }
}

/// All objects in all classes and as their own values, and all constants.
fn full(schema: &Schema) -> StateBuilder {
    let mut builder = StateBuilder::new(schema);
    while let Ok(object) = builder.object() {
        for class in (0..MAX_CLASSES).map(Class) {
            builder.member(class, object).expect("a fact");
        }
        for attribute in (0..MAX_ATTRIBUTES).map(Attribute) {
            builder.pair(attribute, object, object).expect("a fact");
        }
    }
    for number in 0..MAX_CONSTANTS {
        let constant = Constant(number);
        builder.name(constant, Object(number)).expect("a fact");
    }
    builder
}

#[test]
fn objects_and_facts() {
    let schema = largest();
    let mut builder = full(&schema);
    let one_more = builder.object();
    assert_eq!(one_more, too_many(Item::Object, MAX_OBJECTS.into()));
    let mut second = 1;
    while builder
        .pair(Attribute(0), Object(0), Object(second))
        .is_ok()
    {
        second += 1;
    }
    let one_more = builder.pair(Attribute(0), Object(0), Object(second));
    assert_eq!(one_more.map(|_| ()), too_many(Item::Fact, MAX_FACTS));
    // A fact that is there already needs no room.
    let again = builder.pair(Attribute(0), Object(0), Object(0));
    assert!(again.is_ok());
    let state = builder.build().expect("a state");
    assert_eq!(state.objects(), MAX_OBJECTS);
    assert_eq!(state.facts().count(), MAX_FACTS);
    let most = MAX_CLASSES * MAX_OBJECTS;
    assert_eq!(state.class_facts().count(), most.into());
    assert_eq!(state.words().len(), DECIDE_WORDS);
    assert_eq!(schema.legal(&state), Ok(Legality::Legal));
    let all = Query::new(&schema, &Concept::everything()).expect("a query");
    let selected = schema.select(&all, &state).expect("a selection");
    assert_eq!(selected.len(), MAX_OBJECTS.into());
    let (last, one_more) = (Attribute(MAX_ATTRIBUTES - 1), Attribute(MAX_ATTRIBUTES));
    let refused = Err(Refusal::BAD_ATTRIBUTE);
    for (attribute, expected) in [(last, Ok(MAX_OBJECTS.into())), (one_more, refused)] {
        let links = schema.links_by_first(&all, &state, attribute);
        assert_eq!(links, expected);
        let links = schema.links_by_second(&all, &state, attribute);
        assert_eq!(links, expected);
    }

    let mut words = state.words().to_vec();
    words[0] += 1;
    assert_eq!(refused_as(State::from_words(&schema, words)), Some(7));
    let facts = vec![fact::member(0, 0); MAX_FACTS + 1];
    let words = layout::state(1, &facts);
    assert_eq!(refused_as(State::from_words(&schema, words)), Some(7));
}

/// Every count of class facts: only the true one is accepted. All others are refused
/// alike, for the count has no limit of its own.
#[test]
fn class_facts() {
    let schema = largest();
    let names: Vec<Pair> = (0..MAX_CONSTANTS).map(|k| fact::name(k, k)).collect();
    let pair = fact::pair(0, 0, 0);
    let members = [fact::member(0, 3), fact::member(MAX_CLASSES - 1, 3)];
    for members in [&members[..], &[]] {
        let facts = [members, &[pair], &names].concat();
        let mut words = layout::state(MAX_CONSTANTS, &facts);
        for count in 0..=u16::MAX {
            words[CLASS_FACTS] = count;
            let read = State::from_words(&schema, words.clone());
            let is_true = usize::from(count) == members.len();
            let expected = if is_true { None } else { Some(15) };
            assert_eq!(refused_as(read), expected, "{count}");
        }
    }

    let full = full(&schema).build().expect("a state");
    let most = MAX_CLASSES * MAX_OBJECTS;
    for count in [0, most - 1, most + 1, u16::MAX] {
        let mut words = full.words().to_vec();
        words[CLASS_FACTS] = count;
        assert_eq!(refused_as(State::from_words(&schema, words)), Some(15));
    }
}

/// The largest state that a decision may need: each mark is an object too.
#[test]
fn facts_of_marks() {
    let schema = largest();
    let mut builder = full(&schema);
    let last = Object(MAX_OBJECTS - 1);
    for mark in (0..MAX_MARKS).map(Mark) {
        builder.choose(mark, last).expect("a fact");
    }
    for second in (1..).map(Object).take(QUERY_STEPS) {
        builder
            .pair(Attribute(0), Object(0), second)
            .expect("a fact");
    }
    let one_more = builder.pair(Attribute(0), Object(1), Object(0));
    assert_eq!(one_more.map(|_| ()), too_many(Item::Fact, MAX_FACTS));
    builder.choose(Mark(0), last).expect("a fact that is there");
    let state = builder.build().expect("a state");
    assert_eq!(state.words().len(), DECIDE_WORDS);
    let read = State::from_words(&schema, state.words().to_vec());
    assert_eq!(read.as_ref(), Ok(&state));

    let marks = (0..MAX_MARKS).map(Mark).map(Concept::mark);
    let all = marks.fold(Concept::everything(), Concept::both);
    let query = Query::new(&schema, &all).expect("a query");
    let view = View::new(&schema, &Concept::constant(Constant(0))).expect("a view");
    let found = schema.counterexample(&query, &view, &state);
    assert_eq!(found, Ok(Some(last)));
}

/// As many links as there may be facts.
#[test]
fn links() {
    let signature = Signature {
        attributes: 1,
        ..Signature::default()
    };
    let builder = SchemaBuilder::numbered(signature).expect("few enough");
    let schema = builder.build();
    let pair = |number| fact::pair(0, number / MAX_OBJECTS, number % MAX_OBJECTS);
    let facts: Vec<Pair> = (0..).map(pair).take(MAX_FACTS).collect();
    let state = State::from_words(&schema, layout::state(MAX_OBJECTS, &facts));
    let state = state.expect("a state");
    let all = Query::new(&schema, &Concept::everything()).expect("a query");
    let expected = Ok(MAX_FACTS as u64);
    let links = schema.links_by_first(&all, &state, Attribute(0));
    assert_eq!(links, expected);
    let links = schema.links_by_second(&all, &state, Attribute(0));
    assert_eq!(links, expected);
}

#[test]
fn lent_words() {
    let schema = layout::schema(LARGEST, &[]);
    let everything = layout::concept(&[token::EVERYTHING]);
    let class = layout::concept(&[token::class(0)]);
    let mut lent = vec![0; DECIDE_WORDS];
    let (mut objects, mut object) = (99, 98);
    let fewer = &mut lent[1..];
    let returned = raw::decide(
        &schema,
        &everything,
        &class,
        fewer,
        &mut objects,
        &mut object,
    );
    assert_eq!((returned, objects, object), (11, 99, 98));
    let returned = raw::decide(
        &schema,
        &everything,
        &class,
        &mut lent,
        &mut objects,
        &mut object,
    );
    assert_eq!(returned, 0);
    assert!(object < objects && objects == u64::from(lent[0]));
}
