//! Tests of the comparison itself: it finds wrong answers, and finds them in
//! small calls, on inputs that are worth comparing on.

mod catalogued;
mod class_facts;
mod each_entry;
mod loose;
mod marks;
mod misread;
mod mixes;
mod smallest;
mod spoilt;

use crate::verify::Difference;
use crate::{catalogues, damaged, names, states, triples};
use tools::answer::Answerer;
use tools::prng::Prng;

const SEED: u64 = 3;
const CALLS: usize = 3_000;
const CATALOGUES: usize = 300;
/// Some damage is rare.
const DAMAGED: usize = 30_000;

/// What the comparison of verdicts finds with a wrong answerer.
fn triple_difference(wrong: &dyn Answerer) -> Box<Difference> {
    let run = triples::run(wrong, &mut Prng::new(SEED), CALLS);
    run.err().expect("a wrong verdict")
}

fn state_difference(wrong: &dyn Answerer) -> Box<Difference> {
    let run = states::run(wrong, &mut Prng::new(SEED), CALLS);
    run.err().expect("a wrong judgement")
}

fn name_difference(wrong: &dyn Answerer) -> Box<Difference> {
    let run = names::run(wrong, &mut Prng::new(SEED), CALLS);
    run.err().expect("a wrong name")
}

fn catalogue_difference(wrong: &dyn Answerer) -> Box<Difference> {
    let run = catalogues::run(wrong, &mut Prng::new(SEED), CATALOGUES);
    run.err().expect("a wrong order")
}

fn damage_difference(wrong: &dyn Answerer) -> Box<Difference> {
    let run = damaged::run(wrong, &mut Prng::new(SEED), DAMAGED);
    run.err().expect("a wrong refusal")
}
