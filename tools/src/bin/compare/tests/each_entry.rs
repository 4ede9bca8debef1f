//! No entry is left out: each of the list is compared on the calls that are drawn for
//! its family and on damaged ones.

use super::spoilt::{Answer, Spoilt};
use super::SEED;
use crate::{catalogues, damaged, names, states, triples};
use tools::answer::Answerer;
use tools::call::Entry;
use tools::prng::Prng;

/// How many calls are drawn at least; a wrong value stands in nearly all of them.
const CALLS: usize = 50;
/// Enough for a few harmless ones of each entry.
const DAMAGED: usize = 5_000;

/// An answerer with one value that is wrong in each call of the entry that is accepted.
fn wrong(entry: Entry) -> impl Answerer {
    Spoilt(move |answer: &mut Answer| {
        answer.out.outs[0] += u64::from(answer.is_of(entry));
    })
}

#[test]
fn a_wrong_value_is_found_in_drawn_calls() {
    for &entry in Entry::ALL {
        let wrong = wrong(entry);
        let prng = || Prng::new(SEED);
        let found = [
            triples::run(&wrong, &mut prng(), CALLS).err(),
            states::run(&wrong, &mut prng(), CALLS).err(),
            names::run(&wrong, &mut prng(), CALLS).err(),
            catalogues::run(&wrong, &mut prng(), CALLS).err(),
        ];
        let mut found = found.into_iter().flatten();
        let found = found.next().expect("a wrong value");
        assert_eq!(found.call.entry, entry);
    }
}

#[test]
fn a_wrong_value_is_found_in_damaged_calls() {
    for &entry in Entry::ALL {
        let found = damaged::run(&wrong(entry), &mut Prng::new(SEED), DAMAGED);
        let found = found.err().expect("a wrong value");
        assert_eq!(found.call.entry, entry);
    }
}
