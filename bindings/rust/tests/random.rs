//! Whatever the builders build is accepted, and no words make a call fail in
//! another way than by a refusal.

use bikuvoa::layout::{self, Pair, MAX_ATTRIBUTES, MAX_CLASSES, MAX_CONSTANTS, MAX_MARKS};
use bikuvoa::layout::{CLASS_FACTS, MAX_VIEWS, QUERY_STEPS, VIEW_STEPS};
use bikuvoa::{catalogue, check_concept, check_query, check_view, decide, holds, legal, select};
use bikuvoa::{links_by_first, links_by_second};
use bikuvoa::{Attribute, Axiom, Class, Concept, Constant, Fact, Mark, Object, Path, Token};
use bikuvoa::{BuildError, Decision, Legality, Named, Query, Refusal, Schema, Signature, State};
use bikuvoa::{SchemaBuilder, StateBuilder, View};
use std::collections::BTreeSet;

const DRAWS: usize = 2_000;

/// A xorshift generator, so that each run draws the same.
struct Random(u64);

impl Random {
    fn next(&mut self) -> u64 {
        self.0 ^= self.0 << 13;
        self.0 ^= self.0 >> 7;
        self.0 ^= self.0 << 17;
        self.0
    }

    /// A number below the bound, or 0 if that is 0.
    fn below(&mut self, bound: u16) -> u16 {
        (self.next() >> 32).checked_rem(bound.into()).unwrap_or(0) as u16
    }

    fn signature(&mut self) -> Signature {
        let constants = self.below(MAX_CONSTANTS + 1);
        Signature {
            classes: self.below(MAX_CLASSES + 1),
            attributes: self.below(MAX_ATTRIBUTES + 1),
            constants,
            loose: self.below(1 << constants),
        }
    }

    /// Any class at all, and one that is not declared every now and then; the
    /// builders must sort out which.
    fn class(&mut self, signature: Signature) -> Class {
        Class(self.near(signature.classes))
    }

    fn attribute(&mut self, signature: Signature) -> Attribute {
        Attribute(self.near(signature.attributes))
    }

    fn constant(&mut self, signature: Signature) -> Constant {
        Constant(self.near(signature.constants))
    }

    /// With marks or without them.
    fn drawn(&mut self, schema: &Schema) -> Drawn {
        Drawn {
            marks: self.below(2) == 0,
            ..unmarked(schema)
        }
    }

    fn mark(&mut self) -> Mark {
        Mark(self.near(MAX_MARKS))
    }

    fn near(&mut self, count: u16) -> u16 {
        match self.below(40) {
            0 => count,
            1 => self.next() as u16,
            _ => self.below(count),
        }
    }

    fn axiom(&mut self, signature: Signature) -> Axiom {
        let (class, other) = (self.class(signature), self.class(signature));
        let attribute = self.attribute(signature);
        match self.below(5) {
            0 => Axiom::Subclass {
                class,
                superclass: other,
            },
            1 => Axiom::Typing {
                class,
                attribute,
                values: other,
            },
            2 => Axiom::Necessary { class, attribute },
            3 => Axiom::Single { class, attribute },
            _ => Axiom::Relates {
                attribute,
                domain: class,
                range: other,
            },
        }
    }

    fn schema(&mut self) -> Schema {
        let signature = self.signature();
        let mut builder = SchemaBuilder::numbered(signature).expect("few enough");
        for _ in 0..self.below(130) {
            // What cannot be is turned down, and the rest is built.
            let _ = builder.axiom(self.axiom(signature));
        }
        builder.build()
    }

    fn concept(&mut self, drawn: Drawn, depth: u16) -> Concept {
        if depth == 0 {
            return match self.below(4) {
                _ if drawn.marks && self.below(3) == 0 => Concept::mark(self.mark()),
                0 => Concept::everything(),
                1 => Concept::constant(self.constant(drawn.signature)),
                _ => Concept::class(self.class(drawn.signature)),
            };
        }
        let shallower = self.below(depth);
        match self.below(4) {
            0 => Concept::both(
                self.concept(drawn, depth - 1),
                self.concept(drawn, shallower),
            ),
            1 => Concept::common(self.path(drawn, depth), self.path(drawn, shallower)),
            _ => Concept::reached(self.path(drawn, depth)),
        }
    }

    fn path(&mut self, drawn: Drawn, depth: u16) -> Path {
        let mut path = Path::empty();
        for _ in 0..self.below(5) {
            let attribute = self.attribute(drawn.signature);
            let depth = self.below(depth + 1) / 2;
            let landing = self.concept(drawn, depth);
            path = match self.below(3) {
                0 => path.backward(attribute, landing),
                _ => path.forward(attribute, landing),
            };
        }
        path
    }

    fn state(&mut self, schema: &Schema, drawn: Drawn) -> Option<State> {
        let signature = drawn.signature;
        let mut builder = StateBuilder::new(schema);
        let objects = self.below(40);
        for _ in 0..objects {
            builder.object().expect("an object");
        }
        for _ in 0..self.below(200) {
            let (one, other) = (Object(self.near(objects)), Object(self.near(objects)));
            let _ = match self.below(2) {
                0 => builder.member(self.class(signature), one),
                _ => builder.pair(self.attribute(signature), one, other),
            };
        }
        for _ in 0..self.below(20) {
            let _ = builder.name(self.constant(signature), Object(self.near(objects)));
        }
        if drawn.marks {
            for _ in 0..self.below(5) {
                let _ = builder.choose(self.mark(), Object(self.near(objects)));
            }
        }
        builder.build().ok()
    }
}

/// What concepts and states are drawn from.
#[derive(Clone, Copy)]
struct Drawn {
    signature: Signature,
    marks: bool,
}

fn unmarked(schema: &Schema) -> Drawn {
    Drawn {
        signature: schema.signature(),
        marks: false,
    }
}

/// The marks that a concept uses.
fn used(concept: &Concept) -> BTreeSet<Mark> {
    let tokens = concept.tokens().iter();
    let marks = tokens.filter_map(|token| match token {
        Token::Mark(mark) => Some(*mark),
        _ => None,
    });
    marks.collect()
}

/// The marks that have an object in a state.
fn chosen(state: &State) -> BTreeSet<Mark> {
    let marks = state.facts().filter_map(|fact| match fact {
        Fact::Choice { mark, .. } => Some(mark),
        _ => None,
    });
    marks.collect()
}

#[test]
fn built_schemas_are_accepted() {
    let mut random = Random(1);
    for _ in 0..DRAWS {
        let schema = random.schema();
        let read = Schema::from_words(schema.words().to_vec());
        let read = read.expect("an accepted schema");
        assert_eq!(read.words(), schema.words());
        assert!(read.axioms().eq(schema.axioms()));
    }
}

#[test]
fn built_concepts_are_accepted() {
    let mut random = Random(2);
    let (mut queries, mut with_marks, mut views) = (0, 0, 0);
    for _ in 0..DRAWS {
        let schema = random.schema();
        let (drawn, depth) = (random.drawn(&schema), random.below(5));
        let concept = random.concept(drawn, depth);
        let is_marked = !used(&concept).is_empty();
        if let Ok(query) = Query::new(&schema, &concept) {
            queries += 1;
            with_marks += usize::from(is_marked);
            let read = Query::from_words(&schema, query.words().to_vec());
            assert_eq!(read.as_ref(), Ok(&query));
            assert_eq!(query.concept(), concept);
        }
        let view = View::new(&schema, &concept);
        let is_turned_down = matches!(view, Err(BuildError::MarkInView(_)));
        assert_eq!(is_turned_down, is_marked);
        if let Ok(view) = view {
            views += 1;
            let read = View::from_words(&schema, view.words().to_vec());
            assert_eq!(read, Ok(view));
        }
    }
    assert!(queries > DRAWS / 4 && views > DRAWS / 4);
    assert!(with_marks > DRAWS / 20, "{with_marks} with marks");
    assert!(queries > with_marks + views, "{queries}, {views} views");
}

/// Whether two constants name one object.
fn is_shared(state: &State) -> bool {
    let mut objects = state.facts().filter_map(|fact| match fact {
        Fact::Name { object, .. } => Some(object),
        _ => None,
    });
    let mut known = BTreeSet::new();
    !objects.all(|object| known.insert(object))
}

#[test]
fn built_states_are_accepted() {
    let mut random = Random(3);
    let (mut states, mut shared, mut with_marks) = (0, 0, 0);
    for _ in 0..DRAWS {
        let schema = random.schema();
        let drawn = random.drawn(&schema);
        if let Some(state) = random.state(&schema, drawn) {
            states += 1;
            shared += usize::from(is_shared(&state));
            let read = State::from_words(&schema, state.words().to_vec());
            assert_eq!(read, Ok(state.clone()));
            let legality = schema.legal(&state);
            if chosen(&state).is_empty() {
                assert!(legality.is_ok(), "{legality:?}");
            } else {
                with_marks += 1;
                assert_eq!(legality, Err(Refusal::BAD_FACT));
            }
        }
    }
    assert!(states > DRAWS / 4, "{states} states");
    assert!(with_marks > DRAWS / 20, "{with_marks} with marks");
    assert!(states > with_marks + DRAWS / 20);
    assert!(shared > DRAWS / 20, "{shared} with a shared object");
}

/// The class facts, by a walk over all facts.
fn members(state: &State) -> Vec<Fact> {
    let is_member = |fact: &Fact| matches!(fact, Fact::Member { .. });
    state.facts().filter(is_member).collect()
}

#[test]
fn class_facts_of_built_states_are_counted() {
    let mut random = Random(9);
    let (mut none, mut mixed, mut refused) = (0, 0, 0);
    for _ in 0..DRAWS {
        let schema = random.schema();
        let drawn = random.drawn(&schema);
        let Some(state) = random.state(&schema, drawn) else {
            continue;
        };
        let (members, facts) = (members(&state), state.facts().count());
        assert!(state.class_facts().eq(members.iter().copied()));
        none += usize::from(members.is_empty());
        mixed += usize::from((1..facts).contains(&members.len()));

        let mut words = state.words().to_vec();
        words[CLASS_FACTS] = random.near(facts as u16 + 1);
        let is_true = usize::from(words[CLASS_FACTS]) == members.len();
        let expected = is_true.then_some(()).ok_or(Refusal::BAD_CLASS_FACTS);
        let read = State::from_words(&schema, words).map(|_| ());
        assert_eq!(read, expected);
        refused += usize::from(!is_true);
    }
    let few = DRAWS / 40;
    assert!(none > few && mixed > few, "{none}, {mixed}");
    assert!(refused > few, "{refused}");
}

#[test]
fn links_of_built_states_are_counted() {
    let mut random = Random(6);
    let (mut none, mut some, mut refused) = (0, 0, 0);
    while none + some < DRAWS {
        let schema = random.schema();
        let drawn = unmarked(&schema);
        let query = Query::new(&schema, &random.concept(drawn, 1));
        let (Ok(query), Some(state)) = (query, random.state(&schema, drawn)) else {
            continue;
        };
        let counted = random.attribute(schema.signature());
        let selected = schema.select(&query, &state).expect("a selection");
        let is_link = |fact: &Fact| match fact {
            Fact::Pair {
                attribute, first, ..
            } => *attribute == counted && selected.contains(first),
            _ => false,
        };
        let expected = if counted.0 < schema.signature().attributes {
            Ok(state.facts().filter(is_link).count() as u64)
        } else {
            Err(Refusal::BAD_ATTRIBUTE)
        };
        let links = schema.links_by_first(&query, &state, counted);
        assert_eq!(links, expected);
        let links = schema.links_by_second(&query, &state, counted);
        assert_eq!(links, expected);
        match links {
            Ok(0) => none += 1,
            Ok(_) => some += 1,
            Err(_) => refused += 1,
        }
    }
    assert!(none > DRAWS / 20 && some > DRAWS / 20, "{none}, {some}");
    assert!(refused > DRAWS / 40, "{refused}");
}

/// What a concept names, by a walk over its tokens.
fn walked(concept: &Concept) -> Named {
    let mut named = Named::default();
    for &token in concept.tokens() {
        match token {
            Token::Class(Class(number)) => {
                let is_new = named.class_set & 1 << number == 0;
                named.class_set |= 1 << number;
                named.count += u64::from(is_new);
            }
            Token::Forward(Attribute(number)) | Token::Backward(Attribute(number)) => {
                named.attribute_set |= 1 << number;
            }
            _ => {}
        }
    }
    named
}

#[test]
fn names_of_built_concepts_are_told() {
    let mut random = Random(7);
    let (mut queries, mut views, mut repeating, mut some) = (0, 0, 0, 0);
    let mut plain = 0;
    while queries < DRAWS {
        let schema = random.schema();
        let signature = schema.signature();
        let (drawn, depth) = (random.drawn(&schema), random.below(5));
        let concept = random.concept(drawn, depth);
        let Ok(query) = Query::new(&schema, &concept) else {
            continue;
        };
        let named = walked(&concept);
        assert_eq!(schema.check_query(&query), Ok(named));
        let as_concept = if used(&concept).is_empty() {
            Ok(named)
        } else {
            Err(Refusal::BAD_TOKEN)
        };
        assert_eq!(schema.check_concept(&query), as_concept);
        let as_view = match View::new(&schema, &concept) {
            Ok(_) => Ok(named),
            Err(BuildError::MarkInView(_)) => Err(Refusal::BAD_TOKEN),
            Err(_) => Err(Refusal::BAD_STEPS),
        };
        assert_eq!(check_view(schema.words(), query.words()), as_view);
        let is_class = |token: &&Token| matches!(token, Token::Class(_));
        let mentions = concept.tokens().iter().filter(is_class).count();
        queries += 1;
        plain += usize::from(as_concept.is_ok());
        views += usize::from(as_view.is_ok());
        repeating += usize::from(named.count < mentions as u64);
        some += usize::from((1..signature.classes.into()).contains(&named.count));
    }
    let few = DRAWS / 20;
    assert!(views > few && plain - views > few / 2, "{views} of {plain}");
    assert!(queries - plain > few, "{plain} without marks");
    assert!(repeating > few && some > few, "{repeating}, {some}");
}

/// The state without the objects of marks.
fn without_marks(schema: &Schema, state: &State) -> State {
    let is_choice = |fact: &Fact| matches!(fact, Fact::Choice { .. });
    let facts = state.facts().filter(|fact| !is_choice(fact));
    let facts: Vec<Pair> = facts.map(Fact::words).collect();
    let words = layout::state(state.objects(), &facts);
    State::from_words(schema, words).expect("a state")
}

/// What is held and what is open, by whether the query has marks.
#[test]
fn built_triples_are_decided() {
    let mut random = Random(4);
    let (mut held, mut open, mut shared) = ([0; 2], [0; 2], 0);
    while held[0] + held[1] + open[0] + open[1] < DRAWS {
        let schema = random.schema();
        let drawn = random.drawn(&schema);
        let asked = random.concept(drawn, 2);
        let query = Query::new(&schema, &asked);
        let view = View::new(&schema, &random.concept(unmarked(&schema), 1));
        let (Ok(query), Ok(view)) = (query, view) else {
            continue;
        };
        let marks = used(&asked);
        let sort = usize::from(!marks.is_empty());
        let decision = schema.decide(&query, &view);
        assert_eq!(schema.holds(&query, &view), Ok(decision.is_held()));
        match decision {
            Decision::Held => held[sort] += 1,
            Decision::Open { state, object } => {
                open[sort] += 1;
                shared += usize::from(is_shared(&state));
                assert_eq!(chosen(&state), marks);
                assert!(state.class_facts().eq(members(&state)));
                let found = schema.counterexample(&query, &view, &state);
                let found = found.expect("an answer").expect("a legal state");
                assert!(found <= object, "{found:?}, {object:?}");
                let plain = without_marks(&schema, &state);
                assert_eq!(schema.legal(&plain), Ok(Legality::Legal));
                let in_view = schema.select(&view.clone().into(), &plain);
                assert!(!in_view.expect("a selection").contains(&object));
                if marks.is_empty() {
                    let in_query = schema.select(&query, &state);
                    assert!(in_query.expect("a selection").contains(&object));
                }
                let read = State::from_words(&schema, state.words().to_vec());
                assert_eq!(read, Ok(state));
            }
            Decision::Refused(refusal) => panic!("{refusal} of {schema:?}, {query:?}, {view:?}"),
        }
    }
    let many = held.iter().chain(&open).all(|&count| count > DRAWS / 40);
    assert!(many, "{held:?}, {open:?}");
    assert!(shared > DRAWS / 200, "{shared} with a shared object");
}

/// The groups by their definition: each time, of those with no narrower group to
/// come, the one with the lowest view. The first of the views that are left and
/// have no narrower one is in it.
fn groups(views: usize, is_held: impl Fn(usize, usize) -> bool) -> Vec<Vec<usize>> {
    let is_narrower = |one, other| is_held(one, other) && !is_held(other, one);
    let mut left: Vec<usize> = (0..views).collect();
    let mut groups = Vec::new();
    while !left.is_empty() {
        let waits = |view: usize| left.iter().any(|&other| is_narrower(other, view));
        let next = left.iter().copied().find(|&view| !waits(view));
        let next = next.expect("a view that no other is narrower than");
        let is_same = |&view: &usize| is_held(view, next) && is_held(next, view);
        let (group, others) = left.into_iter().partition(is_same);
        groups.push(group);
        left = others;
    }
    groups
}

#[test]
fn built_catalogues_are_put_in_order() {
    let mut random = Random(8);
    let (mut drawn, mut together, mut moved) = (0, 0, 0);
    while drawn < DRAWS / 10 {
        let schema = random.schema();
        let views = (0..random.below(40)).filter_map(|_| {
            let depth = random.below(3);
            View::new(&schema, &random.concept(unmarked(&schema), depth)).ok()
        });
        let views: Vec<View> = views.take(MAX_VIEWS).collect();
        if views.is_empty() {
            continue;
        }
        let catalogued = schema.catalogue(&views).expect("an order");
        for (i, one) in views.iter().enumerate() {
            for (j, other) in views.iter().enumerate() {
                let held = schema.holds(&one.clone().into(), other);
                assert_eq!(held, Ok(catalogued.is_held(i, j)));
            }
        }
        let expected = groups(views.len(), |one, other| catalogued.is_held(one, other));
        assert!(catalogued.in_order().eq(expected.iter().cloned()));
        assert_eq!(catalogued.groups, expected.len() as u64);
        drawn += 1;
        together += usize::from(expected.len() < views.len());
        moved += usize::from(!expected.is_sorted());
    }
    let few = DRAWS / 100;
    assert!(together > few && moved > few, "{together}, {moved}");
}

/// Few words, mostly small.
fn any_words(random: &mut Random) -> Vec<u16> {
    let bound = [2, 4, 12, 600, u16::MAX][usize::from(random.below(5))];
    (0..random.below(14)).map(|_| random.below(bound)).collect()
}

#[test]
fn any_words_are_answered() {
    let mut random = Random(5);
    let mut refused = 0;
    for _ in 0..50 * DRAWS {
        let (schema, one) = (any_words(&mut random), any_words(&mut random));
        let other = any_words(&mut random);
        let in_range = |refusal: Refusal| (1..=Refusal::LAST.number()).contains(&refusal.number());
        let selected = select(&schema, &one, &other);
        assert!(selected.as_ref().err().is_none_or(|&error| in_range(error)));
        if let Err(refusal) = check_concept(&schema, &one) {
            assert_eq!(selected, Err(refusal));
        }
        let attribute = random.below(MAX_ATTRIBUTES);
        for links in [links_by_first, links_by_second] {
            let links = links(&schema, &one, &other, attribute);
            assert!(links.err().is_none_or(in_range));
        }
        assert!(legal(&schema, &one).err().is_none_or(in_range));
        let answer = holds(&schema, &one, &other);
        // Two checks say what is wrong with the records of a triple.
        let checked = check_query(&schema, &one).and(check_view(&schema, &other));
        assert_eq!(checked.err(), answer.err());
        let ordered = catalogue(&schema, &layout::catalogue(&[&one, &other]));
        let checked = check_view(&schema, &one).and(check_view(&schema, &other));
        assert_eq!(checked.err(), ordered.err());
        assert!(catalogue(&schema, &one).err().is_none_or(in_range));
        if let Decision::Refused(refusal) = decide(&schema, &one, &other) {
            refused += 1;
            assert!(in_range(refusal));
            assert_eq!(answer, Err(refusal));
        } else {
            assert!(answer.is_ok(), "{answer:?}");
        }
        if let Ok(schema) = Schema::from_words(schema) {
            if let Ok(state) = State::from_words(&schema, one) {
                assert!(schema.legal(&state).is_ok());
            }
            if let Ok(query) = Query::from_words(&schema, other) {
                assert!(query.concept().tokens().len() <= 64);
            }
        }
    }
    assert!(refused > 0);
}

/// Nested far beyond what a record can have: turned down, and nothing breaks.
#[test]
fn a_deep_concept_is_turned_down() {
    let schema = SchemaBuilder::new().build();
    let mut concept = Concept::everything();
    for _ in 0..100_000 {
        concept = Concept::both(concept, Concept::everything());
    }
    assert!(Query::new(&schema, &concept).is_err());
    let mut path = Path::empty();
    for _ in 0..=QUERY_STEPS.max(VIEW_STEPS) {
        path = path.forward(Attribute(0), Concept::everything());
    }
    assert!(View::new(&schema, &Concept::reached(path)).is_err());
}
