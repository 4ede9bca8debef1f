//! The calls: the twelve small states, links and names counted by hand, refusals
//! on raw words, and threads.

use bikuvoa::layout::{self, axiom, fact, token, Pair, Signature};
use bikuvoa::{catalogue, check_concept, check_query, check_view, counterexample, decide};
use bikuvoa::{holds, legal, links_by_first, links_by_second, raw, select};
use bikuvoa::{Attribute, Class, Concept, Constant, Decision, Legality, Mark, Named, Object, Path};
use bikuvoa::{Query, Refusal, Schema, SchemaBuilder, State, StateBuilder, View};

const STRAP: Class = Class(0);
const PERSON: Class = Class(1);
const WEARS: Attribute = Attribute(0);
const CONSTANT: Constant = Constant(0);

const STRAPS: Signature = Signature {
    classes: 2,
    attributes: 1,
    constants: 1,
    loose: 0,
};

/// A person wears at most one thing, and only persons wear, and only straps.
fn straps() -> SchemaBuilder {
    let mut builder = SchemaBuilder::numbered(STRAPS).expect("few enough");
    builder.single(PERSON, WEARS).expect("an axiom");
    builder.relates(WEARS, PERSON, STRAP).expect("an axiom");
    builder
}

/// Persons 0 and 1 wear strap 2, and the constant names 0.
fn worn(schema: &Schema) -> State {
    let mut builder = StateBuilder::new(schema);
    let objects = [(); 3].map(|()| builder.object().expect("an object"));
    let [one, other, strap] = objects;
    for person in [one, other] {
        builder.member(PERSON, person).expect("a fact");
        builder.pair(WEARS, person, strap).expect("a fact");
    }
    builder.member(STRAP, strap).expect("a fact");
    builder.name(CONSTANT, one).expect("a fact");
    builder.build().expect("a state")
}

#[test]
fn the_small_selections() {
    let schema = straps().build();
    let state = worn(&schema);
    let (all, constant) = (Concept::everything(), Concept::constant(CONSTANT));
    let to = |landing: &Concept| Path::empty().forward(WEARS, landing.clone());
    let strap = Concept::class(STRAP);
    let back = to(&all).backward(WEARS, constant.clone());
    for (concept, expected) in [
        (all.clone(), vec![0, 1, 2]),
        (constant, vec![0]),
        (Concept::reached(to(&strap)), vec![0, 1]),
        (
            Concept::reached(Path::empty().backward(WEARS, all.clone())),
            vec![2],
        ),
        (Concept::reached(back.clone()), vec![0, 1]),
        (Concept::common(back, Path::empty()), vec![0]),
        (Concept::reached(Path::empty()), vec![0, 1, 2]),
        (Concept::both(Concept::class(PERSON), strap.clone()), vec![]),
        (Concept::common(to(&all), to(&strap)), vec![0, 1]),
    ] {
        let query = Query::new(&schema, &concept).expect("a query");
        let expected = expected.into_iter().map(Object).collect();
        assert_eq!(schema.select(&query, &state), Ok(expected), "{concept:?}");
    }
}

#[test]
fn the_small_judgements() {
    let mut builder = straps();
    let schema = builder.build();
    let state = worn(&schema);
    assert_eq!(schema.legal(&state), Ok(Legality::Legal));
    builder.necessary(STRAP, WEARS).expect("an axiom");
    let stricter = builder.build();
    assert_eq!(stricter.legal(&state), Ok(Legality::Broken(2)));

    let nothing = SchemaBuilder::new().build();
    let empty = StateBuilder::new(&nothing).build().expect("a state");
    assert_eq!(nothing.legal(&empty), Ok(Legality::Legal));
    let all = Query::new(&nothing, &Concept::everything()).expect("a query");
    assert_eq!(nothing.select(&all, &empty), Ok(Vec::new()));
    assert!(State::from_words(&nothing, empty.words().to_vec()).is_ok());

    let everything = Query::new(&schema, &Concept::everything()).expect("a query");
    let person = View::new(&schema, &Concept::class(PERSON)).expect("a view");
    let found = schema.counterexample(&everything, &person, &state);
    assert_eq!(found, Ok(Some(Object(2))));
    // A state that breaks an axiom disproves nothing.
    let found = stricter.counterexample(&everything, &person, &state);
    assert_eq!(found, Ok(None));
}

#[test]
fn the_small_verdicts() {
    let schema = straps().build();
    let wearing = Concept::reached(Path::empty().forward(WEARS, Concept::everything()));
    let (wearers, person) = (wearing, Concept::class(PERSON));
    for (asked, listed, held) in [(&wearers, &person, true), (&person, &wearers, false)] {
        let query = Query::new(&schema, asked).expect("a query");
        let view = View::new(&schema, listed).expect("a view");
        assert_eq!(schema.decide(&query, &view).is_held(), held);
        assert_eq!(schema.holds(&query, &view), Ok(held));
    }
}

/// Persons 0 to 3 and straps 4 to 6. Person 0 wears every strap and person 1 two
/// of them, so the axiom is broken, and a strap wears itself. Straps lend too.
#[test]
fn the_counts_of_links() {
    const LENDS: Attribute = Attribute(1);
    let signature = Signature {
        classes: 2,
        attributes: 2,
        constants: 0,
        loose: 0,
    };
    let mut builder = SchemaBuilder::numbered(signature).expect("few enough");
    builder.single(PERSON, WEARS).expect("an axiom");
    let schema = builder.build();
    let mut builder = StateBuilder::new(&schema);
    for number in 0..7 {
        let object = builder.object().expect("an object");
        let class = if number < 4 { PERSON } else { STRAP };
        builder.member(class, object).expect("a fact");
    }
    let wears = [(0, 4), (0, 5), (0, 6), (1, 4), (1, 5), (6, 6)];
    let lends = [(0, 1), (5, 1), (5, 2), (6, 2)];
    for (attribute, pairs) in [(WEARS, &wears[..]), (LENDS, &lends)] {
        for &(first, second) in pairs {
            let pair = builder.pair(attribute, Object(first), Object(second));
            pair.expect("a fact");
        }
    }
    let state = builder.build().expect("a state");
    assert_eq!(schema.legal(&state), Ok(Legality::Broken(0)));

    let (all, person) = (Concept::everything(), Concept::class(PERSON));
    let strap = Concept::class(STRAP);
    let wearers = Concept::reached(Path::empty().forward(WEARS, all.clone()));
    for (concept, attribute, expected) in [
        // Of 6 pairs, by 2 of the 4 persons, to 3 straps.
        (&person, WEARS, 5),
        (&person, LENDS, 1),
        (&strap, WEARS, 1),
        (&strap, LENDS, 3),
        (&wearers, WEARS, 6),
        (&wearers, LENDS, 2),
        (&all, WEARS, 6),
        (&all, LENDS, 4),
        (&Concept::both(person.clone(), strap.clone()), WEARS, 0),
    ] {
        let query = Query::new(&schema, concept).expect("a query");
        let links = schema.links_by_first(&query, &state, attribute);
        assert_eq!(links, Ok(expected), "{concept:?}, {attribute:?}");
        let links = schema.links_by_second(&query, &state, attribute);
        assert_eq!(links, Ok(expected), "{concept:?}, {attribute:?}");
    }
}

/// The axioms mention every class and attribute, and there are as many constants
/// as classes: neither is named for that.
#[test]
fn the_names_in_concepts() {
    const BOAT: Class = Class(2);
    const LENDS: Attribute = Attribute(1);
    let signature = Signature {
        classes: 3,
        attributes: 2,
        constants: 3,
        loose: 0b011,
    };
    let mut builder = SchemaBuilder::numbered(signature).expect("few enough");
    builder.relates(WEARS, PERSON, STRAP).expect("an axiom");
    builder.typing(BOAT, LENDS, BOAT).expect("an axiom");
    let schema = builder.build();

    let (all, strap) = (Concept::everything(), Concept::class(STRAP));
    let (person, boat) = (Concept::class(PERSON), Concept::class(BOAT));
    let constant = Concept::constant(Constant(2));
    let worn = Path::empty().forward(WEARS, all.clone());
    let lent = Path::empty().backward(LENDS, strap.clone());
    let there_and_back = worn.clone().backward(WEARS, constant.clone());
    for (concept, class_set, attribute_set, count) in [
        (all.clone(), 0b000, 0b00, 0),
        (constant, 0b000, 0b00, 0),
        (Concept::reached(Path::empty()), 0b000, 0b00, 0),
        (boat.clone(), 0b100, 0b00, 1),
        // A class that is named twice counts once.
        (Concept::both(boat.clone(), boat.clone()), 0b100, 0b00, 1),
        (Concept::both(boat.clone(), strap.clone()), 0b101, 0b00, 2),
        (Concept::reached(worn), 0b000, 0b01, 0),
        (Concept::reached(lent.clone()), 0b001, 0b10, 1),
        (Concept::reached(there_and_back.clone()), 0b000, 0b01, 0),
        (
            Concept::common(there_and_back, lent.forward(LENDS, person.clone())),
            0b011,
            0b11,
            2,
        ),
        (
            Concept::both(Concept::both(person, boat), strap),
            0b111,
            0b00,
            3,
        ),
    ] {
        let named = Named {
            class_set,
            attribute_set,
            count,
        };
        let query = Query::new(&schema, &concept).expect("a query");
        assert_eq!(schema.check_concept(&query), Ok(named), "{concept:?}");
        assert_eq!(schema.check_query(&query), Ok(named), "{concept:?}");
        let view = View::new(&schema, &concept).expect("a view");
        assert_eq!(schema.check_view(&view), Ok(named), "{concept:?}");
    }
}

#[test]
fn names_are_listed_ascending() {
    let named = Named {
        class_set: 0b1001 << 20 | 0b101,
        attribute_set: 0b1000_0010,
        count: 4,
    };
    let classes: Vec<Class> = named.classes().collect();
    assert_eq!(classes, [0, 2, 20, 23].map(Class));
    let attributes: Vec<Attribute> = named.attributes().collect();
    assert_eq!(attributes, [1, 7].map(Attribute));
    let nothing = Named::default();
    assert_eq!(nothing.classes().count() + nothing.attributes().count(), 0);
}

/// A schema, a concept and a state that are accepted.
struct Words {
    schema: Vec<u16>,
    concept: Vec<u16>,
    state: Vec<u16>,
}

fn words() -> Words {
    let schema = straps().build();
    Words {
        schema: schema.words().to_vec(),
        concept: layout::concept(&[token::EVERYTHING]),
        state: worn(&schema).words().to_vec(),
    }
}

/// The record without its last word.
fn cut(mut words: Vec<u16>) -> Vec<u16> {
    words.pop();
    words
}

/// As `STRAPS`, with another loose word.
fn with_loose(loose: u16) -> Signature {
    Signature { loose, ..STRAPS }
}

fn faulty_schemas() -> Vec<(u16, Vec<u16>)> {
    let undeclared = axiom::subclass(STRAPS.classes, 0);
    let (_, right) = axiom::relates(0, 0, 0);
    let unknown = (256 * (axiom::RELATES + 1), right);
    let one_more = Signature {
        classes: layout::MAX_CLASSES + 1,
        ..with_loose(0b10)
    };
    vec![
        (1, vec![]),
        (1, cut(words().schema)),
        // Records without a loose word, with axioms and with none.
        (1, vec![2, 1, 1, 2, 1025, 1280, 0, 256]),
        (1, vec![2, 1, 1, 0]),
        // The loose word is looked at after the sizes and before the axioms.
        (1, cut(layout::schema(with_loose(0b10), &[undeclared]))),
        (1, layout::schema(one_more, &[])),
        (14, layout::schema(with_loose(0b10), &[undeclared])),
        (14, layout::schema(with_loose(0b11), &[])),
        (14, layout::schema(with_loose(1 << 15), &[unknown])),
        (14, layout::schema(with_loose(u16::MAX), &[])),
        (2, layout::schema(with_loose(0b01), &[undeclared])),
        (2, layout::schema(STRAPS, &[undeclared])),
        (2, layout::schema(STRAPS, &[unknown])),
    ]
}

fn faulty_concepts() -> Vec<(u16, Vec<u16>)> {
    let step = [
        token::EMPTY,
        token::EVERYTHING,
        token::forward(0),
        token::REACHED,
    ];
    let without_steps = [];
    vec![
        (3, vec![]),
        (3, layout::concept(&[])),
        (3, cut(words().concept)),
        (4, layout::concept(&[token::class(STRAPS.classes)])),
        (4, layout::concept(&[token::mark(layout::MAX_MARKS)])),
        (4, layout::concept(&[(token::MARK + 1, 0)])),
        (4, layout::concept(&[(token::EVERYTHING.0, 1)])),
        // Of several faults the one with the lowest number is told.
        (4, layout::concept(&[token::BOTH, (token::BOTH.0, 1)])),
        (5, layout::CONCEPT.record(&[0, 1], &[token::BOTH])),
        (5, layout::concept(&[token::BOTH])),
        (5, layout::concept(&[token::EVERYTHING, token::EVERYTHING])),
        (5, layout::concept(&[token::EMPTY])),
        (6, layout::CONCEPT.record(&without_steps, &step)),
    ]
}

/// A state record that counts its class facts as so many.
fn counting(class_facts: u16, objects: u16, facts: &[Pair]) -> Vec<u16> {
    let mut words = layout::state(objects, facts);
    words[layout::CLASS_FACTS] = class_facts;
    words
}

fn faulty_states() -> Vec<(u16, Vec<u16>)> {
    let (one, two) = (fact::name(0, 0), fact::name(0, 1));
    let (member, absent) = (fact::member(0, 0), fact::member(0, 1));
    let pair = fact::pair(0, 0, 0);
    vec![
        (7, vec![]),
        (7, cut(words().state)),
        // Records without a count of class facts, with facts and with none.
        (
            7,
            vec![3, 6, 2, 512, 513, 12288, 12289, 16384, 0, 0, 0, 2, 2, 0],
        ),
        (7, vec![1, 0]),
        // A false count of class facts is looked for after the order of the facts and
        // before the constants.
        (7, cut(counting(2, 1, &[member, one]))),
        (7, counting(2, layout::MAX_OBJECTS + 1, &[member, one])),
        (8, counting(2, 1, &[absent, one])),
        (8, layout::state(1, &[absent, one])),
        (8, layout::state(1, &[fact::member(STRAPS.classes, 0), one])),
        (
            8,
            layout::state(1, &[one, fact::choice(layout::MAX_MARKS, 0)]),
        ),
        (9, layout::state(1, &[one, one])),
        (9, counting(2, 1, &[one, one])),
        (9, counting(0, 1, &[one, member])),
        (15, counting(0, 1, &[member, pair, one])),
        (15, counting(2, 1, &[member, pair, one])),
        (15, counting(3, 1, &[member, pair, one])),
        (15, counting(1, 1, &[one])),
        (15, counting(u16::MAX, 1, &[one])),
        (15, counting(1, 1, &[])),
        (15, counting(0, 1, &[member])),
        (15, counting(2, 2, &[one, two])),
        (10, layout::state(1, &[])),
        (10, layout::state(1, &[member])),
        (10, layout::state(2, &[one, two])),
    ]
}

/// The number of the refusal, or 0.
fn number<T>(answer: Result<T, Refusal>) -> u16 {
    answer.err().map_or(0, Refusal::number)
}

/// What both counts of links are refused as.
fn counted(schema: &[u16], query: &[u16], state: &[u16], attribute: u16) -> u16 {
    let by_first = number(links_by_first(schema, query, state, attribute));
    let by_second = number(links_by_second(schema, query, state, attribute));
    assert_eq!(by_first, by_second);
    by_first
}

/// What all three checks are refused as.
fn checked(schema: &[u16], concept: &[u16]) -> u16 {
    let as_concept = number(check_concept(schema, concept));
    let as_query = number(check_query(schema, concept));
    let as_view = number(check_view(schema, concept));
    assert_eq!([as_query, as_view], [as_concept; 2]);
    as_concept
}

fn decided(schema: &[u16], query: &[u16], view: &[u16]) -> u16 {
    match decide(schema, query, view) {
        Decision::Refused(refusal) => refusal.number(),
        _ => 0,
    }
}

#[test]
fn each_entry_refuses_each_faulty_record() {
    let Words {
        schema,
        concept,
        state,
    } = words();
    for (expected, faulty) in faulty_schemas() {
        assert_eq!(number(select(&faulty, &[], &[])), expected);
        assert_eq!(number(legal(&faulty, &[])), expected);
        assert_eq!(number(counterexample(&faulty, &[], &[], &[])), expected);
        assert_eq!(counted(&faulty, &[], &[], u16::MAX), expected);
        assert_eq!(checked(&faulty, &[]), expected);
        assert_eq!(decided(&faulty, &[], &[]), expected);
        assert_eq!(number(holds(&faulty, &[], &[])), expected);
        assert_eq!(number(catalogue(&faulty, &[])), expected);
        assert_eq!(number(Schema::from_words(faulty)), expected);
    }
    let accepted = Schema::from_words(schema.clone()).expect("a schema");
    for (expected, faulty) in faulty_concepts() {
        assert_eq!(number(select(&schema, &faulty, &[])), expected);
        let as_query = counterexample(&schema, &faulty, &[], &[]);
        assert_eq!(number(as_query), expected);
        let as_view = counterexample(&schema, &concept, &faulty, &[]);
        assert_eq!(number(as_view), expected);
        assert_eq!(counted(&schema, &faulty, &[], u16::MAX), expected);
        assert_eq!(checked(&schema, &faulty), expected);
        assert_eq!(decided(&schema, &faulty, &[]), expected);
        assert_eq!(decided(&schema, &concept, &faulty), expected);
        assert_eq!(number(holds(&schema, &faulty, &[])), expected);
        assert_eq!(number(holds(&schema, &concept, &faulty)), expected);
        let views = layout::catalogue(&[&concept, &faulty]);
        assert_eq!(number(catalogue(&schema, &views)), expected);
        assert_eq!(
            number(Query::from_words(&accepted, faulty.clone())),
            expected
        );
        assert_eq!(number(View::from_words(&accepted, faulty)), expected);
    }
    for (expected, faulty) in faulty_states() {
        assert_eq!(number(select(&schema, &concept, &faulty)), expected);
        assert_eq!(number(legal(&schema, &faulty)), expected);
        let found = counterexample(&schema, &concept, &concept, &faulty);
        assert_eq!(number(found), expected);
        assert_eq!(counted(&schema, &concept, &faulty, WEARS.0), expected);
        assert_eq!(counted(&schema, &concept, &faulty, u16::MAX), expected);
        assert_eq!(number(State::from_words(&accepted, faulty)), expected);
    }
    assert_eq!(number(select(&schema, &concept, &state)), 0);
    assert_eq!(counted(&schema, &concept, &state, WEARS.0), 0);
    assert_eq!(checked(&schema, &concept), 0);
    assert_eq!(decided(&schema, &concept, &concept), 0);
    assert_eq!(number(holds(&schema, &concept, &concept)), 0);
    let views = layout::catalogue(&[&concept, &concept]);
    assert_eq!(number(catalogue(&schema, &views)), 0);
}

#[test]
fn an_undeclared_attribute_is_refused() {
    let Words {
        schema,
        concept,
        state,
    } = words();
    assert_eq!(counted(&schema, &concept, &state, STRAPS.attributes - 1), 0);
    for undeclared in [STRAPS.attributes, layout::MAX_ATTRIBUTES, 256, u16::MAX] {
        assert_eq!(counted(&schema, &concept, &state, undeclared), 12);
    }
    let schema = straps().build();
    let state = worn(&schema);
    let query = Query::new(&schema, &Concept::everything()).expect("a query");
    let undeclared = Attribute(STRAPS.attributes);
    let refused = Err(Refusal::BAD_ATTRIBUTE);
    assert_eq!(schema.links_by_first(&query, &state, undeclared), refused);
    assert_eq!(schema.links_by_second(&query, &state, undeclared), refused);
}

#[test]
fn a_refused_call_alters_nothing() {
    let Words {
        schema,
        concept,
        state,
    } = words();
    let mut lent = [7; 4];
    let (mut out, mut second) = (99, 98);
    let returned = raw::select(&schema, &concept, &state, &mut lent[..2], &mut out);
    assert_eq!((returned, lent, out), (11, [7; 4], 99));
    for (expected, faulty) in faulty_states() {
        let returned = raw::select(&schema, &concept, &faulty, &mut lent, &mut out);
        assert_eq!((returned, lent, out), (expected, [7; 4], 99));
        let returned = raw::legal(&schema, &faulty, &mut out);
        assert_eq!((returned, out), (expected, 99));
        let returned = raw::counterexample(&schema, &concept, &concept, &faulty, &mut out);
        assert_eq!((returned, out), (expected, 99));
    }
    let returned = raw::counterexample(&schema, &concept, &[], &state, &mut out);
    assert_eq!((returned, out), (3, 99));
    let returned = raw::decide(&schema, &concept, &[], &mut lent, &mut out, &mut second);
    assert_eq!((returned, lent, out, second), (3, [7; 4], 99, 98));
    let returned = raw::holds(&schema, &concept, &[], &mut out);
    assert_eq!((returned, out), (3, 99));
    for links in [raw::links_by_first, raw::links_by_second] {
        for (expected, faulty) in faulty_states() {
            let returned = links(&schema, &concept, &faulty, WEARS.0, &mut out);
            assert_eq!((returned, out), (expected, 99));
        }
        let returned = links(&schema, &concept, &state, STRAPS.attributes, &mut out);
        assert_eq!((returned, out), (12, 99));
        let mut out = out;
        let returned = links(&schema, &concept, &state, WEARS.0, &mut out);
        assert_eq!((returned, out), (0, 2));
    }

    let returned = raw::select(&schema, &concept, &state, &mut lent, &mut out);
    assert_eq!((returned, lent, out), (0, [1, 1, 1, 7], 3));
    let returned = raw::holds(&schema, &concept, &concept, &mut out);
    assert_eq!((returned, out), (0, 1));
    let person = layout::concept(&[token::class(PERSON.0)]);
    let returned = raw::holds(&schema, &concept, &person, &mut out);
    assert_eq!((returned, out), (0, 0));
}

#[test]
fn a_refused_check_alters_nothing() {
    let Words {
        schema, concept, ..
    } = words();
    for check in [raw::check_concept, raw::check_query, raw::check_view] {
        let (mut classes, mut attributes, mut named) = (97, 98, 99);
        let mut check = |schema: &[u16], concept: &[u16]| {
            let returned = check(schema, concept, &mut classes, &mut attributes, &mut named);
            (returned, classes, attributes, named)
        };
        for (expected, faulty) in faulty_schemas() {
            assert_eq!(check(&faulty, &concept), (expected, 97, 98, 99));
        }
        for (expected, faulty) in faulty_concepts() {
            assert_eq!(check(&schema, &faulty), (expected, 97, 98, 99));
        }
        // "Everything" names nothing, and that is written too.
        assert_eq!(check(&schema, &concept), (0, 0, 0, 0));
    }
}

#[test]
fn each_refusal_has_a_text() {
    let Words {
        schema,
        concept,
        state,
    } = words();
    let mut texts = std::collections::BTreeSet::new();
    let mut numbers = Vec::new();
    let mut refusals = Vec::new();
    for (_, faulty) in faulty_schemas() {
        refusals.extend(legal(&faulty, &state).err());
    }
    for (_, faulty) in faulty_concepts() {
        refusals.extend(select(&schema, &faulty, &state).err());
    }
    for (_, faulty) in faulty_states() {
        refusals.extend(legal(&schema, &faulty).err());
    }
    refusals.extend(links_by_first(&schema, &concept, &state, u16::MAX).err());
    refusals.extend(catalogue(&schema, &[]).err());
    for refusal in refusals {
        let text = refusal.to_string();
        assert!(text.starts_with(&format!("refused as {}: ", refusal.number())));
        texts.insert(text);
        numbers.push(refusal.number());
    }
    numbers.dedup();
    // The safe calls lend enough, so one refusal does not come up.
    let few = Refusal::FEW_LENT_WORDS;
    numbers.push(few.number());
    numbers.sort_unstable();
    assert_eq!(numbers, (1..=Refusal::LAST.number()).collect::<Vec<u16>>());
    texts.insert(few.to_string());
    assert_eq!(texts.len(), usize::from(Refusal::LAST.number()));
    assert!(texts.iter().all(|text| !text.contains("not known")));
}

#[test]
fn a_record_of_another_schema_is_refused() {
    let schema = straps().build();
    let other = SchemaBuilder::new().build();
    let query = Query::new(&schema, &Concept::class(PERSON)).expect("a query");
    let view = View::new(&schema, &Concept::class(PERSON)).expect("a view");
    let state = worn(&schema);
    let all = Query::new(&other, &Concept::everything()).expect("a query");
    assert_eq!(number(other.select(&query, &state)), 4);
    assert_eq!(number(other.select(&all, &state)), 8);
    assert_eq!(number(other.legal(&state)), 8);
    assert_eq!(number(other.counterexample(&all, &view, &state)), 4);
    assert_eq!(number(other.links_by_first(&query, &state, WEARS)), 4);
    assert_eq!(number(other.links_by_second(&all, &state, WEARS)), 8);
    assert_eq!(number(other.check_concept(&query)), 4);
    assert_eq!(number(other.check_query(&query)), 4);
    assert_eq!(number(other.check_view(&view)), 4);
    let decision = other.decide(&query, &view);
    assert!(matches!(decision, Decision::Refused(_)), "{decision:?}");
    assert_eq!(number(other.holds(&query, &view)), 4);
    assert_eq!(number(other.catalogue(&[view])), 4);
}

/// A thread with just the stack that is said to be enough decides deep queries of
/// all the steps that there may be, counts links, tells what is named, and puts
/// views of all the steps that there may be in order.
#[test]
fn the_stack_is_enough() {
    let schema = straps().build();
    let mut nested = vec![Concept::class(STRAP)];
    for steps in 0..layout::QUERY_STEPS {
        let landing = nested[steps].clone();
        nested.push(Concept::reached(Path::empty().forward(WEARS, landing)));
    }
    let query = Query::new(&schema, &nested[layout::QUERY_STEPS]).expect("a query");
    // The farthest landings have marks, as far as there are tokens for them.
    let mut marked = Concept::class(STRAP);
    for steps in 0..layout::QUERY_STEPS {
        if steps < 7 {
            let mark = Concept::mark(Mark(steps as u16 % layout::MAX_MARKS));
            marked = Concept::both(marked, mark);
        }
        marked = Concept::reached(Path::empty().forward(WEARS, marked));
    }
    let marked = Query::new(&schema, &marked).expect("a query");
    let deepest = View::new(&schema, &nested[layout::VIEW_STEPS]).expect("a view");
    let views = vec![deepest; layout::MAX_VIEWS];
    let view = View::new(&schema, &Concept::class(STRAP)).expect("a view");
    let state = worn(&schema);
    std::thread::scope(|scope| {
        let small = std::thread::Builder::new().stack_size(raw::STACK_BYTES);
        let calls = || {
            let decision = schema.decide(&query, &view);
            assert!(matches!(decision, Decision::Open { .. }), "{decision:?}");
            assert_eq!(schema.holds(&query, &view), Ok(false));
            let decision = schema.decide(&marked, &view);
            assert!(matches!(decision, Decision::Open { .. }), "{decision:?}");
            assert_eq!(schema.links_by_first(&query, &state, WEARS), Ok(0));
            assert_eq!(schema.links_by_second(&query, &state, WEARS), Ok(0));
            let count = schema.check_concept(&query).map(|named| named.count);
            assert_eq!(count, Ok(1));
            let groups = schema.catalogue(&views).map(|order| order.groups);
            assert_eq!(groups, Ok(1));
        };
        let thread = small.spawn_scoped(scope, calls).expect("a thread");
        thread.join().expect("the answers");
    });
}

#[test]
fn threads_decide_alike() {
    let schema = straps().build();
    let wearing = Concept::reached(Path::empty().forward(WEARS, Concept::everything()));
    let query = Query::new(&schema, &wearing).expect("a query");
    let view = View::new(&schema, &Concept::class(PERSON)).expect("a view");
    let turned = View::new(&schema, &wearing).expect("a view");
    let person = Query::from(view.clone());
    let alone = schema.decide(&person, &turned);
    assert!(matches!(alone, Decision::Open { .. }), "{alone:?}");
    let views = [view.clone(), turned.clone()];
    std::thread::scope(|scope| {
        for _ in 0..4 {
            scope.spawn(|| {
                for _ in 0..100 {
                    assert_eq!(schema.decide(&query, &view), Decision::Held);
                    assert_eq!(schema.decide(&person, &turned), alone);
                    assert_eq!(schema.holds(&query, &view), Ok(true));
                    assert_eq!(schema.holds(&person, &turned), Ok(false));
                    let catalogued = schema.catalogue(&views).expect("an order");
                    assert!(catalogued.in_order().eq([[1], [0]]));
                }
            });
        }
    });
}
