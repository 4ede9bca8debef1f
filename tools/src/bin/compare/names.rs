//! The checks on random concepts.

use crate::schemas::Schemas;
use crate::verify::{verify, Difference};
use bikuvoa::layout::{self, Pair, Signature, MAX_ATTRIBUTES, MAX_CLASSES};
use std::fmt;
use tools::answer::Answerer;
use tools::call::{Call, Entry};
use tools::draw::triple::{Marks, Triple};
use tools::prng::Prng;

/// How many concepts name nothing, something or all of what is declared.
#[derive(Default)]
pub struct Mix {
    pub none: usize,
    pub some: usize,
    pub all: usize,
    /// How many name the last that there may be.
    pub last: usize,
}

#[derive(Default)]
pub struct Tally {
    pub schemas: Schemas,
    pub concepts: usize,
    /// How many of them are accepted as views too.
    pub views: usize,
    /// How many of them have marks, and so are accepted as queries only.
    pub marked: usize,
    pub classes: Mix,
    pub attributes: Mix,
}

impl Mix {
    fn count(&mut self, set: u32, declared: u16, most: u16) {
        match set.count_ones() {
            0 => self.none += 1,
            named if named < declared.into() => self.some += 1,
            _ => self.all += 1,
        }
        self.last += usize::from(set >> (most - 1) == 1);
    }
}

impl Tally {
    fn count_named(&mut self, declared: Signature, [classes, attributes]: [u32; 2]) {
        let (of_classes, of_attributes) = (&mut self.classes, &mut self.attributes);
        of_classes.count(classes, declared.classes, MAX_CLASSES);
        of_attributes.count(attributes, declared.attributes, MAX_ATTRIBUTES);
    }
}

impl fmt::Display for Mix {
    fn fmt(&self, f: &mut fmt::Formatter) -> fmt::Result {
        let Mix {
            none,
            some,
            all,
            last,
        } = self;
        write!(f, "none {none}, some {some}, all {all}, the last {last}")
    }
}

impl fmt::Display for Tally {
    fn fmt(&self, f: &mut fmt::Formatter) -> fmt::Result {
        write!(
            f,
            "names: concepts {}, accepted as views {}, with marks {}; classes ({}), attributes ({}); \
             {}",
            self.concepts, self.views, self.marked, self.classes, self.attributes, self.schemas
        )
    }
}

/// Verifies each check on each of at least `count` concepts. Of few declared
/// classes often all are named, and of many most are not.
pub fn run(tested: &dyn Answerer, prng: &mut Prng, count: usize) -> Result<Tally, Box<Difference>> {
    let mut tally = Tally::default();
    while tally.concepts < count {
        for draw in [Triple::random, Triple::of_all_names] {
            let marks = Marks::draw(prng);
            let triple = draw(prng, marks);
            tally.schemas.count(triple.signature);
            for concept in [&triple.query, &triple.view] {
                check(tested, &triple, concept, &mut tally)?;
            }
        }
    }
    Ok(tally)
}

/// As one without marks, as a query, which each of them may be, and as a view.
fn check(
    tested: &dyn Answerer,
    triple: &Triple,
    concept: &[Pair],
    tally: &mut Tally,
) -> Result<(), Box<Difference>> {
    let words = layout::concept(concept);
    for &entry in Entry::CHECKS {
        let call = Call {
            query: words.clone(),
            view: words.clone(),
            ..triple.call(entry, Vec::new(), (entry.least_lent)(0))
        };
        let outcome = verify(tested, &call)?;
        match entry {
            Entry::CheckConcept => tally.marked += usize::from(outcome.number != 0),
            Entry::CheckQuery => tally.count_named(triple.signature, outcome.sets),
            Entry::CheckView => tally.views += usize::from(outcome.number == 0),
            _ => {}
        }
    }
    tally.concepts += 1;
    Ok(())
}
