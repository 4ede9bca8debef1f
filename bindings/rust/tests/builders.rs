//! What builders take comes out again, and what cannot be is turned down.

use bikuvoa::layout::MAX_MARKS;
use bikuvoa::{Attribute, Axiom, BuildError, Class, Concept, Constant, Fact, Item, Mark, Object};
use bikuvoa::{Path, Query, Refusal, Schema, SchemaBuilder, Signature, State, StateBuilder};
use bikuvoa::{Token, View};

/// Classes Strap and Person, the attribute wears, and the constant captain.
fn straps() -> SchemaBuilder {
    let mut builder = SchemaBuilder::new();
    let strap = builder.class("Strap").expect("a class");
    let person = builder.class("Person").expect("a class");
    let wears = builder.attribute("wears").expect("an attribute");
    builder.constant("captain").expect("a constant");
    builder.single(person, wears).expect("an axiom");
    builder.relates(wears, person, strap).expect("an axiom");
    builder
}

const STRAP: Class = Class(0);
const PERSON: Class = Class(1);
const WEARS: Attribute = Attribute(0);
const CAPTAIN: Constant = Constant(0);

#[test]
fn a_schema_has_its_record_names_and_axioms() {
    let schema = straps().build();
    assert_eq!(schema.words(), [2, 1, 1, 2, 0, 1025, 1280, 0, 256]);
    assert_eq!(schema.class("Person"), Ok(PERSON));
    assert_eq!(schema.attribute("wears"), Ok(WEARS));
    assert_eq!(schema.constant("captain"), Ok(CAPTAIN));
    assert_eq!(schema.class_name(STRAP), Some("Strap"));
    assert_eq!(schema.attribute_name(WEARS), Some("wears"));
    assert_eq!(schema.constant_name(CAPTAIN), Some("captain"));
    assert_eq!(schema.class_name(Class(2)), None);
    let axioms: Vec<Axiom> = schema.axioms().collect();
    let expected = [
        Axiom::Single {
            class: PERSON,
            attribute: WEARS,
        },
        Axiom::Relates {
            attribute: WEARS,
            domain: PERSON,
            range: STRAP,
        },
    ];
    assert_eq!(axioms, expected);
}

#[test]
fn every_kind_of_axiom_comes_out_again() {
    let signature = Signature {
        classes: 3,
        attributes: 2,
        constants: 4,
        loose: 0b1010,
    };
    let (class, attribute) = (Class(2), Attribute(1));
    let axioms = [
        Axiom::Subclass {
            class,
            superclass: Class(1),
        },
        Axiom::Typing {
            class,
            attribute,
            values: Class(0),
        },
        Axiom::Necessary { class, attribute },
        Axiom::Single { class, attribute },
        Axiom::Relates {
            attribute,
            domain: class,
            range: Class(1),
        },
    ];
    let mut builder = SchemaBuilder::numbered(signature).expect("few enough");
    for axiom in axioms {
        builder.axiom(axiom).expect("an axiom");
    }
    let built = builder.build();
    assert_eq!(built.signature(), signature);
    assert_eq!(built.axioms().collect::<Vec<_>>(), axioms);
    let read = Schema::from_words(built.words().to_vec()).expect("an accepted schema");
    assert_eq!(read.signature(), signature);
    assert_eq!(read.axioms().collect::<Vec<_>>(), axioms);
    assert_eq!(read.class_name(class), None);
}

#[test]
fn loose_constants_are_marked() {
    let mut builder = straps();
    let stroke = builder.constant("stroke").expect("a constant");
    let guest = builder.constant("guest").expect("a constant");
    builder.loose(stroke).expect("a constant");
    let schema = builder.build();
    let words = [2, 1, 3, 2, 0b010, 1025, 1280, 0, 256];
    assert_eq!(schema.words(), words);
    let loose = [CAPTAIN, stroke, guest].map(|constant| schema.is_loose(constant));
    assert_eq!(loose, [false, true, false]);
    let read = Schema::from_words(words.to_vec()).expect("an accepted schema");
    assert!(read.is_loose(stroke) && !read.is_loose(guest));

    // A constant may be marked twice.
    for constant in [guest, stroke] {
        builder.loose(constant).expect("a constant");
    }
    assert_eq!(builder.build().words()[..5], [2, 1, 3, 2, 0b110]);
    for number in [3, 4, 15, 16, 17, u16::MAX] {
        let unmarked = builder.loose(Constant(number)).map(|_| ());
        assert_eq!(unmarked, undeclared(Item::Constant, number));
        assert!(!builder.build().is_loose(Constant(number)));
    }
    assert_eq!(builder.build().words()[..5], [2, 1, 3, 2, 0b110]);
}

#[test]
fn names_are_unknown_or_taken() {
    let mut builder = straps();
    let taken = BuildError::NameTaken {
        what: Item::Class,
        name: "Strap".to_string(),
    };
    assert_eq!(taken.to_string(), "class \"Strap\" is declared already");
    assert_eq!(builder.class("Strap"), Err(taken));
    // An attribute may have the name of a class.
    assert_eq!(builder.attribute("Strap"), Ok(Attribute(1)));
    let unknown = BuildError::UnknownName {
        what: Item::Attribute,
        name: "Person".to_string(),
    };
    assert_eq!(unknown.to_string(), "no attribute is named \"Person\"");
    assert_eq!(builder.build().attribute("Person"), Err(unknown));
}

fn undeclared<T>(what: Item, number: u16) -> Result<T, BuildError> {
    Err(BuildError::Undeclared { what, number })
}

#[test]
fn axioms_name_what_is_declared() {
    let mut builder = straps();
    let (other, far) = (Class(2), Attribute(1));
    for (axiom, what, number) in [
        (
            Axiom::Subclass {
                class: STRAP,
                superclass: other,
            },
            Item::Class,
            2,
        ),
        (
            Axiom::Typing {
                class: STRAP,
                attribute: far,
                values: STRAP,
            },
            Item::Attribute,
            1,
        ),
        (
            Axiom::Necessary {
                class: other,
                attribute: WEARS,
            },
            Item::Class,
            2,
        ),
        (
            Axiom::Single {
                class: STRAP,
                attribute: far,
            },
            Item::Attribute,
            1,
        ),
        (
            Axiom::Relates {
                attribute: WEARS,
                domain: STRAP,
                range: Class(u16::MAX),
            },
            Item::Class,
            u16::MAX,
        ),
    ] {
        assert_eq!(builder.axiom(axiom).map(|_| ()), undeclared(what, number));
    }
    assert_eq!(builder.build(), straps().build());
}

/// The object itself is reached there and back, past a strap and the captain.
fn there_and_back() -> Concept {
    let path = Path::empty()
        .forward(WEARS, Concept::class(STRAP))
        .backward(WEARS, Concept::constant(CAPTAIN));
    let itself = Concept::common(path, Path::empty());
    let worn = Path::empty().forward(WEARS, Concept::everything());
    Concept::both(itself, Concept::reached(worn))
}

#[test]
fn a_concept_is_its_tokens_in_postfix_order() {
    let concept = there_and_back();
    let expected = [
        Token::Empty,
        Token::Class(STRAP),
        Token::Forward(WEARS),
        Token::Constant(CAPTAIN),
        Token::Backward(WEARS),
        Token::Empty,
        Token::Common,
        Token::Empty,
        Token::Everything,
        Token::Forward(WEARS),
        Token::Reached,
        Token::Both,
    ];
    assert_eq!(concept.tokens(), expected);
    let schema = straps().build();
    let query = Query::new(&schema, &concept).expect("a query");
    let lefts = [5, 1, 6, 3, 7, 5, 9, 5, 2, 6, 8, 4];
    assert_eq!(query.words()[..2], [12, 3]);
    assert_eq!(query.words()[2..14], lefts);
    assert_eq!(query.words()[14..], [0; 12]);
    assert_eq!(query.concept(), concept);
}

#[test]
fn queries_and_views_come_out_again() {
    let schema = straps().build();
    let view = View::new(&schema, &there_and_back()).expect("a view");
    let read = View::from_words(&schema, view.words().to_vec());
    assert_eq!(read, Ok(view.clone()));
    assert_eq!(view.concept(), there_and_back());
    let query = Query::new(&schema, &there_and_back()).expect("a query");
    let read = Query::from_words(&schema, query.words().to_vec());
    assert_eq!(read, Ok(query.clone()));
    assert_eq!(Query::from(view), query);
}

#[test]
fn a_query_has_marks_and_a_view_none() {
    let schema = straps().build();
    let path = Path::empty().forward(WEARS, Concept::mark(Mark(3)));
    let concept = Concept::both(Concept::mark(Mark(2)), Concept::reached(path));
    let expected = [
        Token::Mark(Mark(2)),
        Token::Empty,
        Token::Mark(Mark(3)),
        Token::Forward(WEARS),
        Token::Reached,
        Token::Both,
    ];
    assert_eq!(concept.tokens(), expected);
    let query = Query::new(&schema, &concept).expect("a query");
    let words = [6, 1, 10, 5, 10, 6, 8, 4, 2, 0, 3, 0, 0, 0];
    assert_eq!(query.words(), words);
    assert_eq!(query.concept(), concept);
    let read = Query::from_words(&schema, words.to_vec());
    assert_eq!(read, Ok(query));

    let unmarked = BuildError::MarkInView(Mark(2));
    let told = "mark 2 may stand in a query, and in no view";
    assert_eq!(unmarked.to_string(), told);
    assert_eq!(View::new(&schema, &concept), Err(unmarked));
    let refused = View::from_words(&schema, words.to_vec());
    assert_eq!(refused, Err(Refusal::BAD_TOKEN));
}

#[test]
fn concepts_name_what_is_declared() {
    let schema = straps().build();
    for (concept, what, number) in [
        (Concept::class(Class(2)), Item::Class, 2),
        (Concept::constant(Constant(1)), Item::Constant, 1),
        (
            Concept::reached(Path::empty().forward(Attribute(7), Concept::everything())),
            Item::Attribute,
            7,
        ),
        (
            Concept::reached(Path::empty().backward(Attribute(8), Concept::everything())),
            Item::Attribute,
            8,
        ),
    ] {
        assert_eq!(Query::new(&schema, &concept), undeclared(what, number));
        assert_eq!(View::new(&schema, &concept), undeclared(what, number));
    }
}

/// Objects 0 and 1 are persons who wear strap 2, and 0 is the captain.
fn worn() -> StateBuilder {
    let mut builder = StateBuilder::new(&straps().build());
    for _ in 0..3 {
        builder.object().expect("an object");
    }
    let facts = [
        Fact::Name {
            constant: CAPTAIN,
            object: Object(0),
        },
        Fact::Pair {
            attribute: WEARS,
            first: Object(1),
            second: Object(2),
        },
        Fact::Pair {
            attribute: WEARS,
            first: Object(0),
            second: Object(2),
        },
        Fact::Member {
            class: PERSON,
            object: Object(1),
        },
        Fact::Member {
            class: PERSON,
            object: Object(0),
        },
        Fact::Member {
            class: STRAP,
            object: Object(2),
        },
    ];
    // A fact may be given twice.
    for fact in facts.into_iter().chain(facts) {
        builder.fact(fact).expect("a fact");
    }
    builder
}

#[test]
fn a_state_has_its_facts_in_order() {
    let state = worn().build().expect("a state");
    let words = [3, 6, 3, 2, 512, 513, 12288, 12289, 16384, 0, 0, 0, 2, 2, 0];
    assert_eq!(state.words(), words);
    assert_eq!(state.objects(), 3);
    let mut again = StateBuilder::new(&straps().build());
    for _ in 0..state.objects() {
        again.object().expect("an object");
    }
    for fact in state.facts() {
        again.fact(fact).expect("a fact");
    }
    assert_eq!(again.build(), Ok(state.clone()));
    assert_eq!(state.facts().count(), 6);
    let first = Fact::Member {
        class: STRAP,
        object: Object(2),
    };
    assert_eq!(state.facts().next(), Some(first));
    let read = State::from_words(&straps().build(), words.to_vec());
    assert_eq!(read, Ok(state));
}

/// The facts after them are not walked: how many there are at most is known before the
/// first is taken.
#[test]
fn class_facts_are_the_first_facts() {
    let mut builder = worn();
    builder.choose(Mark(0), Object(1)).expect("a fact");
    let state = builder.build().expect("a state");
    let class_facts: Vec<Fact> = state.class_facts().collect();
    let expected = [(STRAP, 2), (PERSON, 0), (PERSON, 1)].map(|(class, object)| Fact::Member {
        class,
        object: Object(object),
    });
    assert_eq!(class_facts, expected);
    assert_eq!(state.class_facts().size_hint().1, Some(3));

    // Without constants all facts may be class facts, or none.
    let mut schema = SchemaBuilder::new();
    let class = schema.class("Strap").expect("a class");
    let mut builder = StateBuilder::new(&schema.build());
    let object = builder.object().expect("an object");
    let none = builder.build().expect("a state");
    assert_eq!(none.words(), [1, 0, 0]);
    assert_eq!(none.class_facts().next(), None);
    builder.member(class, object).expect("a fact");
    let all = builder.build().expect("a state");
    assert_eq!(all.words(), [1, 1, 1, 0, 0]);
    assert!(all.class_facts().eq([Fact::Member { class, object }]));
}

/// Marks are told after the names, and two of them may be one object.
#[test]
fn a_state_has_the_objects_of_marks() {
    let mut builder = worn();
    for (mark, object) in [(3, 2), (0, 1), (1, 2), (0, 1)] {
        builder.choose(Mark(mark), Object(object)).expect("a fact");
    }
    let state = builder.build().expect("a state");
    assert_eq!(state.words()[..3], [3, 9, 3]);
    assert_eq!(state.words()[8..12], [16384, 18433, 18946, 19970]);
    assert_eq!(state.words()[18..], [0; 3]);
    let choices: Vec<Fact> = state.facts().skip(6).collect();
    let expected = [(0, 1), (1, 2), (3, 2)].map(|(mark, object)| Fact::Choice {
        mark: Mark(mark),
        object: Object(object),
    });
    assert_eq!(choices, expected);
    let read = State::from_words(&straps().build(), state.words().to_vec());
    assert_eq!(read.as_ref(), Ok(&state));

    let two = BuildError::TwoChoices(Mark(0));
    assert_eq!(two.to_string(), "mark 0 is another object already");
    let other = builder.choose(Mark(0), Object(2)).map(|_| ());
    assert_eq!(other, Err(two));
    let no_object = builder.choose(Mark(2), Object(3)).map(|_| ());
    assert_eq!(no_object, undeclared(Item::Object, 3));
    let no_mark = builder.choose(Mark(MAX_MARKS), Object(0)).map(|_| ());
    assert_eq!(no_mark, undeclared(Item::Mark, MAX_MARKS));
    let told = no_mark.expect_err("no mark").to_string();
    assert_eq!(told, "there is no mark 4");
    assert_eq!(builder.build(), Ok(state));
}

#[test]
fn facts_name_what_is_there() {
    let mut builder = worn();
    let (here, there) = (Object(0), Object(3));
    let no_class = builder.member(Class(2), here).map(|_| ());
    assert_eq!(no_class, undeclared(Item::Class, 2));
    let no_object = builder.member(PERSON, there).map(|_| ());
    assert_eq!(no_object, undeclared(Item::Object, 3));
    let no_attribute = builder.pair(Attribute(1), here, here).map(|_| ());
    assert_eq!(no_attribute, undeclared(Item::Attribute, 1));
    let no_first = builder.pair(WEARS, there, here).map(|_| ());
    assert_eq!(no_first, undeclared(Item::Object, 3));
    let no_second = builder.pair(WEARS, here, there).map(|_| ());
    assert_eq!(no_second, undeclared(Item::Object, 3));
    let no_constant = builder.name(Constant(1), here).map(|_| ());
    assert_eq!(no_constant, undeclared(Item::Constant, 1));
    assert_eq!(builder.build(), worn().build());
}

#[test]
fn each_constant_names_one_object_of_its_own() {
    let mut schema = straps();
    let stroke = schema.constant("stroke").expect("a constant");
    let schema = schema.build();
    let mut builder = StateBuilder::new(&schema);
    let one = builder.object().expect("an object");
    let other = builder.object().expect("an object");
    assert_eq!(builder.build(), Err(BuildError::NamesNone(CAPTAIN)));
    builder.name(CAPTAIN, one).expect("a name");
    builder.name(CAPTAIN, one).expect("the same name");
    assert_eq!(builder.build(), Err(BuildError::NamesNone(stroke)));
    let two = builder.name(CAPTAIN, other).map(|_| ());
    assert_eq!(two, Err(BuildError::NamesTwo(CAPTAIN)));
    let shared = BuildError::NamedByTwo(one);
    let told = "object 0 is another constant's already, and neither is loose";
    assert_eq!(shared.to_string(), told);
    assert_eq!(builder.name(stroke, one).map(|_| ()), Err(shared));
    builder.name(stroke, other).expect("a name");
    let state = builder.build().expect("a state");
    let read = State::from_words(&schema, state.words().to_vec());
    assert_eq!(read, Ok(state));
}
