//! A difference as a reader needs it to repeat the call.

use crate::outcome::Outcome;
use crate::verify::Difference;
use tools::call::Place;

pub fn report(difference: &Difference) {
    let Difference { call, fault, seen } = difference;
    println!("{}: {fault}", call.entry.name);
    for &place in call.entry.places {
        match (call.record(place), place) {
            (Some(words), _) => println!("{}: {}", place.name(), spaced(words)),
            (None, Place::Attribute) => println!("{}: {}", place.name(), call.attribute),
            (None, Place::Order) => println!("{}: {} words", place.name(), call.order),
            (None, _) => println!("{}: {} words", place.name(), call.lent),
        }
    }
    println!(
        "returned {}, out values {:?}, sets {:?}",
        seen.number, seen.outs, seen.sets
    );
    let untouched = Outcome::untouched(call);
    println!("written: {}", written(&untouched.words, &seen.words));
    if call.entry.takes(Place::Order) {
        println!("order: {}", written(&untouched.order, &seen.order));
    }
}

/// The words up to the first that is as it was.
fn written(untouched: &[u16], seen: &[u16]) -> String {
    let written = untouched.iter().zip(seen);
    let written = written.take_while(|(before, after)| before != after);
    spaced(&seen[..written.count()])
}

fn spaced(words: &[u16]) -> String {
    let words: Vec<String> = words.iter().map(u16::to_string).collect();
    words.join(" ")
}
