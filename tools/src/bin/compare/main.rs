//! Holds the built code to the reference on random and damaged inputs. The one
//! argument is a seed; without it the seed is 1. The first difference found is
//! made small, printed with its words, and ends the program with 1.

mod catalogues;
mod damaged;
mod names;
mod outcome;
mod report;
mod schemas;
mod shrink;
mod states;
mod triples;
mod verify;

#[cfg(test)]
mod tests;

use report::report;
use schemas::Schemas;
use shrink::shrink;
use std::process::ExitCode;
use tools::call::Call;
use tools::prng::Prng;
use tools::proved::Proved;
use verify::{verify, Difference};

const SEED: u64 = 1;
const TRIPLES: usize = 60_000;
const STATES: usize = 40_000;
const DAMAGED: usize = 144_000;
const CONCEPTS: usize = 100_000;
const CATALOGUES: usize = 4_000;

fn main() -> ExitCode {
    let seed = match std::env::args().nth(1).map(|argument| argument.parse()) {
        None => SEED,
        Some(Ok(seed)) => seed,
        Some(Err(_)) => {
            eprintln!("compare: the seed is not a number");
            return ExitCode::FAILURE;
        }
    };
    match compare(seed) {
        Ok(()) => ExitCode::SUCCESS,
        Err(difference) => {
            println!("compare: seed {seed}, a difference");
            report(&smallest(difference));
            ExitCode::FAILURE
        }
    }
}

/// The difference in the smallest call that still has one.
fn smallest(difference: Box<Difference>) -> Box<Difference> {
    let differs = |call: &Call| verify(&Proved, call).is_err();
    let call = shrink(difference.call.clone(), &differs);
    verify(&Proved, &call).err().unwrap_or(difference)
}

/// The five comparisons.
fn compare(seed: u64) -> Result<(), Box<Difference>> {
    println!("compare: seed {seed}");
    let mut prng = Prng::new(seed);
    let triples = triples::run(&Proved, &mut prng.split(), TRIPLES)?;
    println!("{triples}");
    let states = states::run(&Proved, &mut prng.split(), STATES)?;
    println!("{states}");
    let damaged = damaged::run(&Proved, &mut prng.split(), DAMAGED)?;
    println!("{damaged}");
    let names = names::run(&Proved, &mut prng.split(), CONCEPTS)?;
    println!("{names}");
    let catalogues = catalogues::run(&Proved, &mut prng.split(), CATALOGUES)?;
    println!("{catalogues}");
    let schemas: Schemas = [
        triples.schemas,
        states.schemas,
        damaged.schemas,
        names.schemas,
        catalogues.schemas,
    ]
    .into_iter()
    .sum();
    println!(
        "compare: seed {seed}, {} schemas (with loose constants {}), {} triples (held {}, open {}, \
         of these with two constants of one object {}; with marks {}, of these held {}), {} states \
         (legal {}, with two constants of one object {}, with marks {}), {} link counts (not 0 {}), \
         {} damaged records (refused for their count of class facts {}), {} checked concepts \
         (accepted as views {}, with marks {}), {} catalogues (pairs held {}, groups of more than one \
         view {}): no difference",
        schemas.drawn,
        schemas.loose,
        triples.triples(),
        triples.held(),
        triples.open(),
        triples.sharing,
        triples.marked,
        triples.marked_held,
        states.states,
        states.legal,
        states.sharing,
        states.marked,
        states.links,
        states.linked,
        damaged.calls(),
        damaged.miscounted(),
        names.concepts,
        names.views,
        names.marked,
        catalogues.catalogues,
        catalogues.held,
        catalogues.shared
    );
    Ok(())
}
