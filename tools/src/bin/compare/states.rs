//! What judges states and what counts links, on random states.

use crate::schemas::{meets, shares, Schemas};
use crate::verify::{verify, Difference};
use bikuvoa::layout::fact;
use std::fmt;
use tools::answer::Answerer;
use tools::call::Entry;
use tools::draw::attribute;
use tools::draw::state::{self, State};
use tools::draw::triple::{Marks, Triple};
use tools::prng::Prng;

/// How often in a hundred an undeclared attribute is passed as well.
const UNDECLARED: usize = 10;

#[derive(Default)]
pub struct Tally {
    pub schemas: Schemas,
    pub states: usize,
    pub legal: usize,
    selecting: usize,
    counterexamples: usize,
    /// How many have two constants that name one object.
    pub sharing: usize,
    /// How many have objects for marks, which the query uses.
    pub marked: usize,
    /// How many of them are counterexamples.
    pub marked_counterexamples: usize,
    /// How many of them have two marks that are one object.
    pub meeting: usize,
    objects: usize,
    facts: usize,
    /// How many counts of links were compared.
    pub links: usize,
    /// How many of them are not 0.
    pub linked: usize,
}

impl fmt::Display for Tally {
    fn fmt(&self, f: &mut fmt::Formatter) -> fmt::Result {
        write!(
            f,
            "states: legal {}, with an object selected {}, counterexamples {}, with two constants of \
             one object {}; with marks {}, of these counterexamples {}, with two marks of one object \
             {}; up to {} objects and {} facts; link counts {}, not 0 {}; {}",
            self.legal,
            self.selecting,
            self.counterexamples,
            self.sharing,
            self.marked,
            self.marked_counterexamples,
            self.meeting,
            self.objects,
            self.facts,
            self.links,
            self.linked,
            self.schemas
        )
    }
}

/// Verifies each entry that takes a state on each of `count` states. Attributes are
/// drawn aside, so the states do not depend on them.
pub fn run(tested: &dyn Answerer, prng: &mut Prng, count: usize) -> Result<Tally, Box<Difference>> {
    let mut tally = Tally::default();
    let mut attributes = prng.aside();
    while tally.states < count {
        let marks = Marks::draw(prng);
        let triple = Triple::random(prng, marks);
        tally.schemas.count(triple.signature);
        let (schema, query) = triple.decoded();
        let state = state::state(prng, triple.signature, &schema, &query);
        judge(tested, prng, &triple, &state, &mut tally)?;
        count_links(tested, &mut attributes, &triple, &state, &mut tally)?;
    }
    Ok(tally)
}

fn judge(
    tested: &dyn Answerer,
    prng: &mut Prng,
    triple: &Triple,
    state: &State,
    tally: &mut Tally,
) -> Result<(), Box<Difference>> {
    let spare = prng.below(4);
    let is_choice = |&entry: &_| fact::kind(entry) >= fact::MARK_KINDS;
    let marked = state.facts.last().is_some_and(is_choice);
    for &entry in Entry::STATES {
        let lent = (entry.least_lent)(state.objects) + spare;
        let call = triple.call(entry, state.words_for(entry), lent);
        let [value, _] = verify(tested, &call)?.outs;
        match entry {
            Entry::Select => tally.selecting += usize::from(value > 0),
            Entry::Legal => tally.legal += usize::from(value == 0),
            Entry::Counterexample => {
                tally.counterexamples += usize::from(value > 0);
                tally.marked_counterexamples += usize::from(marked && value > 0);
            }
            _ => {}
        }
    }
    let words = state.words_for(Entry::Counterexample);
    tally.states += 1;
    tally.sharing += usize::from(shares(&words));
    tally.marked += usize::from(marked);
    tally.meeting += usize::from(meets(&words));
    tally.objects = tally.objects.max(state.objects);
    tally.facts = tally.facts.max(state.facts.len());
    Ok(())
}

/// With a declared attribute, and now and then with one that is not.
fn count_links(
    tested: &dyn Answerer,
    prng: &mut Prng,
    triple: &Triple,
    state: &State,
    tally: &mut Tally,
) -> Result<(), Box<Difference>> {
    let declared = attribute::declared(prng, triple.signature);
    let undeclared = prng
        .chance(UNDECLARED)
        .then(|| attribute::undeclared(prng, triple.signature));
    for &entry in Entry::LINKS {
        let words = state.words_for(entry);
        let mut call = triple.call(entry, words, (entry.least_lent)(state.objects));
        for attribute in declared.into_iter().chain(undeclared) {
            call.attribute = attribute;
            let outcome = verify(tested, &call)?;
            if outcome.number == 0 {
                tally.links += 1;
                tally.linked += usize::from(outcome.outs[0] > 0);
            }
        }
    }
    Ok(())
}
