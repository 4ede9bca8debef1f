//! Random calls, which are nobody's best case: a fixed seed, and all sizes that
//! the drawing code has.

use bikuvoa::layout::MAX_VIEWS;
use tools::call::{Call, Entry, Place};
use tools::draw::catalogue::Catalogue;
use tools::draw::triple::{Marks, Triple};
use tools::draw::{attribute, state, wide};
use tools::prng::Prng;

/// How many calls of each entry.
pub const CALLS: usize = 200;
const SEED: u64 = 1;

/// The calls of an entry. All entries have the same triples, states and
/// attributes, and catalogues are under the triples' schemas. Queries with marks are
/// others than those without, since a mark is drawn as well.
pub fn calls(entry: Entry, marks: Marks) -> Vec<Call> {
    let mut prng = Prng::new(SEED);
    let mut attributes = prng.aside();
    let mut catalogues = attributes.aside();
    let calls = (0..CALLS).map(|place| {
        let triple = triple(&mut prng, marks, place);
        let mut call = call(&mut prng, &mut attributes, entry, &triple, place);
        if entry.takes(Place::Catalogue) {
            let views = catalogues.between(1, MAX_VIEWS);
            call.catalogue = Catalogue::related(&mut catalogues, &triple, views).words();
        }
        call
    });
    calls.collect()
}

/// A few of the states go up to the limits.
fn call(
    prng: &mut Prng,
    attributes: &mut Prng,
    entry: Entry,
    triple: &Triple,
    place: usize,
) -> Call {
    let (schema, query) = triple.decoded();
    let state = match place % 10 {
        0 => state::large,
        _ => state::state,
    };
    let state = state(prng, triple.signature, &schema, &query);
    let words = state.words_for(entry);
    let mut call = triple.call(entry, words, (entry.least_lent)(state.objects));
    call.attribute = attribute::declared(attributes, triple.signature).unwrap_or(0);
    call
}

/// Half of the triples have a view that has to do with the query, as those that
/// are put to a store will have, and a few need states of hundreds of objects. One
/// without attributes is drawn anew, since a count of links would be refused.
fn triple(prng: &mut Prng, marks: Marks, place: usize) -> Triple {
    loop {
        let triple = match (place % 50, place % 2) {
            (0, _) => wide::triple(prng, marks),
            (_, 0) => Triple::random(prng, marks),
            _ => Triple::followed(prng, marks),
        };
        if triple.signature.attributes > 0 {
            return triple;
        }
    }
}
