//! Damaged records at each place of each entry.

use crate::schemas::Schemas;
use crate::verify::{verify, Difference};
use bikuvoa::Refusal;
use std::fmt;
use tools::answer::Answerer;
use tools::call::{Call, Entry, Place};
use tools::draw::catalogue::Catalogue;
use tools::draw::damage::damage;
use tools::draw::triple::{Marks, Triple};
use tools::draw::{attribute, state};
use tools::prng::Prng;

/// The highest number of a refusal.
const REFUSALS: usize = Refusal::LAST.number() as usize;

/// The most views of a catalogue before it is damaged: more would not be damaged in
/// other ways.
const VIEWS: usize = 4;

#[derive(Default)]
pub struct Tally {
    /// As they were before they were damaged.
    pub schemas: Schemas,
    /// How many calls got each number; 0 is damage that did no harm.
    pub numbers: [usize; REFUSALS + 1],
}

impl Tally {
    pub fn calls(&self) -> usize {
        self.numbers.iter().sum()
    }

    /// How many were refused for their count of class facts.
    pub fn miscounted(&self) -> usize {
        self.numbers[usize::from(Refusal::BAD_CLASS_FACTS.number())]
    }
}

impl fmt::Display for Tally {
    fn fmt(&self, f: &mut fmt::Formatter) -> fmt::Result {
        let [harmless, refused @ ..] = &self.numbers;
        write!(f, "damaged records: harmless {harmless}")?;
        for (number, calls) in (1..).zip(refused) {
            write!(f, ", refused as {number} {calls}")?;
        }
        write!(f, "; {}", self.schemas)
    }
}

/// Verifies at least `count` calls, as many for each place of each entry but for
/// the catalogue.
pub fn run(tested: &dyn Answerer, prng: &mut Prng, count: usize) -> Result<Tally, Box<Difference>> {
    let mut tally = Tally::default();
    while tally.calls() < count {
        let marks = Marks::draw(prng);
        let triple = Triple::random(prng, marks);
        tally.schemas.count(triple.signature);
        for &entry in Entry::ALL {
            let call = sound(prng, entry, &triple);
            for (first, &place) in entry.places.iter().enumerate() {
                for _ in 0..times(place) {
                    let mut call = call.clone();
                    break_from(prng, &mut call, first);
                    let outcome = verify(tested, &call)?;
                    tally.numbers[usize::from(outcome.number)] += 1;
                }
            }
        }
    }
    Ok(tally)
}

/// A catalogue has its own layout and the records of views in it, and can be damaged
/// in more ways than another record.
fn times(place: Place) -> usize {
    match place {
        Place::Catalogue => 4,
        _ => 1,
    }
}

/// A call that is not refused, unless it takes an attribute and none is
/// declared, with no lent word to spare.
fn sound(prng: &mut Prng, entry: Entry, triple: &Triple) -> Call {
    let (schema, query) = triple.decoded();
    let state = state::state(prng, triple.signature, &schema, &query);
    let words = state.words_for(entry);
    let mut call = triple.call(entry, words, (entry.least_lent)(state.objects));
    call.attribute = attribute::declared(prng, triple.signature).unwrap_or(0);
    if entry.takes(Place::Catalogue) {
        let count = prng.between(1, VIEWS);
        call.catalogue = Catalogue::related(prng, triple, count).words();
    }
    call
}

/// Damages one place, and now and then each later one as well, since the first
/// refusal must win.
fn break_from(prng: &mut Prng, call: &mut Call, first: usize) {
    let [place, later @ ..] = &call.entry.places[first..] else {
        return;
    };
    damage(prng, call, *place);
    if prng.chance(25) {
        for &place in later {
            damage(prng, call, place);
        }
    }
}
