//! Damaged records: one that is accepted still is the same after it was printed and
//! read, and any other is a fault of its file.

use super::there_and_back;
use bik::decode;
use bikuvoa::{catalogue, check_query, layout, Schema, State};
use tools::call::{Call, Entry, Place};
use tools::draw::damage::damage;
use tools::draw::state::state;
use tools::draw::triple::{Marks, Triple};
use tools::prng::Prng;

#[test]
fn records_are_read_or_told() {
    let (mut accepted, mut faulty) = (0, 0);
    for seed in 0..6000 {
        let mut prng = Prng::new(seed);
        let mut call = drawn(&mut prng);
        let place = prng.one_of([Place::Schema, Place::Query, Place::Catalogue, Place::State]);
        damage(&mut prng, &mut call, place);
        if read_or_told(&call, place) {
            accepted += 1;
        } else {
            faulty += 1;
        }
    }
    assert!(accepted > 500 && faulty > 2000, "{accepted} {faulty}");
}

/// A call with a record for each place.
fn drawn(prng: &mut Prng) -> Call {
    let marks = Marks::draw(prng);
    let triple = Triple::random(prng, marks);
    let (schema, query) = triple.decoded();
    let state = state(prng, triple.signature, &schema, &query);
    let mut call = triple.call(
        Entry::Counterexample,
        state.words_for(Entry::Counterexample),
        0,
    );
    call.catalogue = layout::catalogue(&[&call.view, &call.view]);
    call
}

/// Whether the library accepts the record of that place.
fn read_or_told(call: &Call, place: Place) -> bool {
    let schema = Schema::from_words(call.schema.clone());
    let record = match place {
        Place::Query => &call.query,
        Place::Catalogue => &call.catalogue,
        _ => &call.state,
    };
    let accepted = schema.is_ok_and(|schema| match place {
        Place::Schema => true,
        Place::Query => check_query(schema.words(), record).is_ok(),
        Place::Catalogue => catalogue(schema.words(), record).is_ok(),
        _ => State::from_words(&schema, record.clone()).is_ok(),
    });
    let mut records = vec![call.schema.clone()];
    if place != Place::Schema {
        records.push(record.clone());
    }
    let others = records[1..]
        .iter()
        .map(|words| ("other.bin", words.clone()));
    let decoded = decode::file(("schema.bin", call.schema.clone()), others.collect());
    match decoded {
        Ok(_) => {
            there_and_back(&records);
        }
        Err(fault) => {
            let file = if place == Place::Schema {
                "schema"
            } else {
                "other"
            };
            let told = format!("{file}.bin: ");
            assert!(!accepted && fault.to_string().starts_with(&told), "{fault}");
        }
    }
    accepted
}
