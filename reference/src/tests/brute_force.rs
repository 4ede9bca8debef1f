//! Verdicts over tiny alphabets against all small states, with all choices of
//! objects for the marks.

use super::random::{self, Alphabet};
use crate::calculus::{decide, Verdict};
use crate::marks::used;
use crate::semantics::{first_broken, separating};
use crate::syntax::{Concept, Path, Schema, State, Step};
use prng::Prng;
use std::collections::{BTreeMap, BTreeSet};

struct Case {
    query: Concept,
    view: Concept,
    verdict: Verdict,
    refuted: bool,
    /// Whether only states refute it in which constants share an object.
    merges: bool,
    /// Whether it is refuted with a different object for each mark.
    apart: bool,
}

#[derive(Default)]
struct Tally {
    held: usize,
    open: usize,
    confirmed: usize,
    merging: usize,
    /// Held, and open if each mark asks for nothing.
    tied: usize,
    /// Refuted only where marks share an object.
    meeting: usize,
}

/// The state whose memberships and pairs are the set bits of a number, and whose
/// constants name these objects.
fn state(alphabet: Alphabet, objects: usize, constants: &[usize], bits: u64) -> State {
    let mut place = 0;
    let mut next = || {
        place += 1;
        bits >> (place - 1) & 1 == 1
    };
    let classes = (0..alphabet.classes)
        .map(|_| (0..objects).filter(|_| next()).collect())
        .collect();
    let pairs = || (0..objects * objects).map(|pair| (pair / objects, pair % objects));
    let attributes = (0..alphabet.attributes)
        .map(|_| pairs().filter(|_| next()).collect())
        .collect();
    State {
        objects,
        classes,
        attributes,
        constants: constants.to_vec(),
        marks: BTreeMap::new(),
    }
}

/// Every choice of objects for the marks.
fn choices(marks: &BTreeSet<usize>, objects: usize) -> Vec<BTreeMap<usize, usize>> {
    let mut choices = vec![BTreeMap::new()];
    for &mark in marks {
        let longer = choices.iter().flat_map(|choice| {
            (0..objects).map(|object| {
                let mut longer: BTreeMap<usize, usize> = choice.clone();
                longer.insert(mark, object);
                longer
            })
        });
        choices = longer.collect();
    }
    choices
}

impl Case {
    fn new(schema: &Schema, query: Concept, view: Concept) -> Self {
        let verdict = decide(schema, &query, &view);
        Case {
            query,
            view,
            verdict,
            refuted: false,
            merges: false,
            apart: false,
        }
    }

    /// Whether a state may yet tell something new.
    fn is_open(&self) -> bool {
        !self.refuted || !self.apart
    }

    /// Tries every choice for the marks in a legal state, in which constants share
    /// objects or not.
    fn try_state(&mut self, state: &mut State, shares: bool) {
        for choice in choices(&used(&self.query), state.objects) {
            let objects: BTreeSet<usize> = choice.values().copied().collect();
            let apart = objects.len() == choice.len();
            state.marks = choice;
            if separating(&self.query, &self.view, state).is_some() {
                self.merges |= !self.refuted && shares;
                self.refuted = true;
                self.apart |= apart;
            }
        }
    }

    /// Whether the verdict is another if each mark asks for nothing.
    fn is_tied(&self, schema: &Schema) -> bool {
        decide(schema, &unmarked(&self.query), &self.view) != self.verdict
    }
}

/// The concept with everything for each mark.
fn unmarked(concept: &Concept) -> Concept {
    match concept {
        Concept::Mark(_) => Concept::Everything,
        Concept::Both(left, right) => {
            Concept::Both(Box::new(unmarked(left)), Box::new(unmarked(right)))
        }
        Concept::Reached(path) => Concept::Reached(unmarked_path(path)),
        Concept::Common(left, right) => Concept::Common(unmarked_path(left), unmarked_path(right)),
        leaf => leaf.clone(),
    }
}

fn unmarked_path(path: &Path) -> Path {
    match path {
        Path::Empty => Path::Empty,
        Path::Then(before, step) => {
            let (role, landing) = (step.role, unmarked(&step.landing));
            let before = unmarked_path(before);
            Path::Then(Box::new(before), Box::new(Step { role, landing }))
        }
    }
}

/// For each way in which the constants may share objects, one choice of the
/// objects that they name: each the next one, or that of a constant before it.
/// The first has an object for each constant.
fn namings(schema: &Schema) -> Vec<Vec<usize>> {
    let mut namings = vec![Vec::new()];
    for constant in 0..schema.constants {
        let longer = namings.into_iter().flat_map(|naming: Vec<usize>| {
            let may_name = |object: &usize| {
                let mut before = naming.iter().enumerate();
                before.all(|(other, named)| named != object || may_share(schema, other, constant))
            };
            let objects = (0..=named(&naming)).rev().filter(may_name);
            let longer = objects.map(|object| [&naming[..], &[object]].concat());
            longer.collect::<Vec<_>>()
        });
        namings = longer.collect();
    }
    namings
}

fn may_share(schema: &Schema, one: usize, other: usize) -> bool {
    schema.loose.contains(&one) || schema.loose.contains(&other)
}

/// How many objects the constants name, which are the first ones.
fn named(naming: &[usize]) -> usize {
    naming.iter().max().map_or(0, |last| last + 1)
}

/// Whether the objects after the first so many stand in order of their classes.
fn sorted(alphabet: Alphabet, named: usize, objects: usize, bits: u64) -> bool {
    let classes = |object| {
        let member = move |class| bits >> (class * objects + object) & 1;
        (0..alphabet.classes).map(member)
    };
    (named + 1..objects).all(|object| classes(object - 1).le(classes(object)))
}

/// Calls `visit` with every state of up to the given number of objects, but
/// with only some of those that differ by a renaming of objects.
fn each_state(alphabet: Alphabet, schema: &Schema, most: usize, mut visit: impl FnMut(State)) {
    for naming in namings(schema) {
        let named = named(&naming);
        for objects in named..=most {
            let bits = alphabet.classes * objects + alphabet.attributes * objects * objects;
            for number in (0..1 << bits).filter(|&bits| sorted(alphabet, named, objects, bits)) {
                visit(state(alphabet, objects, &naming, number));
            }
        }
    }
}

fn cases(prng: &mut Prng, alphabet: Alphabet, schema: &Schema) -> Vec<Case> {
    let case = |_| {
        let query = random::concept(prng, alphabet, 3);
        let view = if prng.chance(30) {
            random::weakened(prng, alphabet, &query, 2)
        } else {
            random::concept(prng, alphabet.unmarked(), 2)
        };
        Case::new(schema, query, view)
    };
    (0..12).map(case).collect()
}

/// A held verdict must survive every legal state; an open one should fall.
fn check(seed: u64, alphabet: Alphabet, most: usize, schemas: usize) -> Tally {
    let mut prng = Prng::new(seed);
    let mut tally = Tally::default();
    for _ in 0..schemas {
        let axioms = prng.below(8);
        let schema = random::schema(&mut prng, alphabet, axioms);
        let mut cases = cases(&mut prng, alphabet, &schema);
        each_state(alphabet, &schema, most, |mut state| {
            if first_broken(&schema, &state).is_some() {
                return;
            }
            let shares = named(&state.constants) < alphabet.constants;
            for case in cases.iter_mut().filter(|case| case.is_open()) {
                case.try_state(&mut state, shares);
            }
        });
        for case in &cases {
            let Case { query, view, .. } = case;
            match case.verdict {
                Verdict::Held => {
                    assert!(!case.refuted, "{schema:?}\n{query:?}\n{view:?}");
                    tally.held += 1;
                    tally.tied += usize::from(case.is_tied(&schema));
                }
                Verdict::Open => {
                    tally.open += 1;
                    tally.confirmed += usize::from(case.refuted);
                    tally.merging += usize::from(case.merges);
                    tally.meeting += usize::from(case.refuted && !case.apart);
                }
            }
        }
    }
    tally
}

fn assert_telling(tally: &Tally) {
    let Tally {
        held,
        open,
        confirmed,
        merging,
        tied,
        meeting,
    } = tally;
    println!("held {held}, open {open}, confirmed {confirmed}, merging {merging}");
    println!("tied {tied}, meeting {meeting}");
    assert!(*held >= 50, "{held} held");
    assert!(*open >= 50, "{open} open");
    assert!(confirmed * 100 >= open * 95, "{confirmed} of {open}");
}

#[test]
fn two_classes_and_an_attribute() {
    let alphabet = Alphabet {
        classes: 2,
        attributes: 1,
        constants: 0,
        marks: 0,
    };
    assert_telling(&check(11, alphabet, 3, 12));
}

#[test]
fn two_classes_an_attribute_and_a_constant() {
    let alphabet = Alphabet {
        classes: 2,
        attributes: 1,
        constants: 1,
        marks: 0,
    };
    assert_telling(&check(12, alphabet, 3, 12));
}

#[test]
fn two_classes_two_attributes_and_a_constant() {
    let alphabet = Alphabet {
        classes: 2,
        attributes: 2,
        constants: 1,
        marks: 0,
    };
    assert_telling(&check(13, alphabet, 2, 40));
}

/// A class, an attribute and so many constants, which now and then must be one
/// object.
fn assert_merging(seed: u64, constants: usize, schemas: usize) {
    let alphabet = Alphabet {
        classes: 1,
        attributes: 1,
        constants,
        marks: 0,
    };
    let tally = check(seed, alphabet, 3, schemas);
    assert_telling(&tally);
    assert!(tally.merging >= 10, "{} merging", tally.merging);
}

#[test]
fn a_class_an_attribute_and_two_constants() {
    assert_merging(14, 2, 30);
}

/// Of three, two that are not loose may each have to be the same as the third.
#[test]
fn a_class_an_attribute_and_three_constants() {
    assert_merging(15, 3, 40);
}

/// A class, an attribute, so many constants and marks. Marks make queries held that
/// are not so without them, and some must meet in one object.
fn assert_marked(seed: u64, constants: usize, marks: usize, schemas: usize) {
    let alphabet = Alphabet {
        classes: 1,
        attributes: 1,
        constants,
        marks,
    };
    let tally = check(seed, alphabet, 3, schemas);
    assert_telling(&tally);
    assert!(tally.tied >= 10, "{} tied", tally.tied);
    assert!(
        marks < 2 || tally.meeting >= 10,
        "{} meeting",
        tally.meeting
    );
}

#[test]
fn a_class_an_attribute_and_a_mark() {
    assert_marked(16, 0, 1, 40);
}

#[test]
fn a_class_an_attribute_and_two_marks() {
    assert_marked(17, 0, 2, 40);
}

#[test]
fn a_class_an_attribute_a_constant_and_two_marks() {
    assert_marked(18, 1, 2, 40);
}

#[test]
fn a_class_an_attribute_two_constants_and_two_marks() {
    assert_marked(19, 2, 2, 60);
}
