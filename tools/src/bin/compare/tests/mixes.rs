//! Tests that the inputs are worth comparing on: a comparison that never meets
//! an answer says nothing of it.

use crate::schemas::Schemas;
use crate::{catalogues, damaged, names, states, triples};
use bikuvoa::layout::MAX_VIEWS;
use tools::prng::Prng;
use tools::proved::Proved;

const SEED: u64 = 7;

/// Between 30 and 70 percent.
fn is_balanced(part: usize, all: usize) -> bool {
    (all * 30..=all * 70).contains(&(part * 100))
}

#[test]
fn held_and_open_are_both_common() {
    let tally = triples::run(&Proved, &mut Prng::new(SEED), 4_000).expect("no difference");
    assert!(is_balanced(tally.held(), tally.triples()), "{tally}");
}

#[test]
fn legal_and_illegal_states_are_both_common() {
    let tally = states::run(&Proved, &mut Prng::new(SEED), 2_000).expect("no difference");
    assert!(is_balanced(tally.legal, tally.states), "{tally}");
}

#[test]
fn counts_of_links_are_often_0_and_often_not() {
    let tally = states::run(&Proved, &mut Prng::new(SEED), 2_000).expect("no difference");
    assert!(is_balanced(tally.linked, tally.links), "{tally}");
}

/// In each comparison at least half of the schemas have loose constants, and some
/// have none.
#[test]
fn loose_constants_are_common() {
    let prng = || Prng::new(SEED);
    let triples = triples::run(&Proved, &mut prng(), 2_000).map(|tally| tally.schemas);
    let states = states::run(&Proved, &mut prng(), 1_000).map(|tally| tally.schemas);
    let damaged = damaged::run(&Proved, &mut prng(), 20_000).map(|tally| tally.schemas);
    let names = names::run(&Proved, &mut prng(), 2_000).map(|tally| tally.schemas);
    let catalogues = catalogues::run(&Proved, &mut prng(), 500).map(|tally| tally.schemas);
    for schemas in [triples, states, damaged, names, catalogues] {
        let schemas = schemas.expect("no difference");
        let Schemas { drawn, loose } = schemas;
        assert!(drawn * 50 <= loose * 100, "{schemas}");
        assert!(loose * 100 <= drawn * 90, "{schemas}");
    }
}

#[test]
fn constants_often_share_an_object() {
    let tally = triples::run(&Proved, &mut Prng::new(SEED), 4_000).expect("no difference");
    assert!(tally.sharing * 20 > tally.open(), "{tally}");
    let tally = states::run(&Proved, &mut Prng::new(SEED), 2_000).expect("no difference");
    assert!(tally.sharing * 10 > tally.states, "{tally}");
}

/// About half of the queries have marks, which are often one object. They are held and
/// open, and counterexamples and not.
#[test]
fn marks_are_common() {
    let tally = triples::run(&Proved, &mut Prng::new(SEED), 4_000).expect("no difference");
    assert!(is_balanced(tally.marked, tally.triples()), "{tally}");
    assert!(is_balanced(tally.marked_held, tally.marked), "{tally}");
    assert!(tally.meeting * 20 > tally.open(), "{tally}");
    let tally = states::run(&Proved, &mut Prng::new(SEED), 2_000).expect("no difference");
    assert!(is_balanced(tally.marked, tally.states), "{tally}");
    assert!(tally.marked_counterexamples * 10 > tally.marked, "{tally}");
    assert!(tally.meeting * 10 > tally.marked, "{tally}");
    let tally = names::run(&Proved, &mut Prng::new(SEED), 4_000).expect("no difference");
    assert!(tally.marked * 10 > tally.concepts, "{tally}");
}

#[test]
fn concepts_name_nothing_or_something_or_all() {
    let tally = names::run(&Proved, &mut Prng::new(SEED), 4_000).expect("no difference");
    let is_common = |part| part * 20 > tally.concepts;
    for mix in [&tally.classes, &tally.attributes] {
        let parts = [mix.none, mix.some, mix.all, mix.last];
        assert!(parts.into_iter().all(is_common), "{tally}");
    }
    let parts = [tally.views, tally.concepts - tally.views];
    assert!(parts.into_iter().all(is_common), "{tally}");
}

#[test]
fn catalogues_have_groups_chains_and_choices() {
    let tally = catalogues::run(&Proved, &mut Prng::new(SEED), 600).expect("no difference");
    assert!(is_balanced(tally.held, tally.pairs), "{tally}");
    assert!(is_balanced(tally.choices, tally.groups), "{tally}");
    assert!(is_balanced(tally.moved, tally.catalogues), "{tally}");
    let is_common = |part, all| part * 10 > all;
    assert!(is_common(tally.shared, tally.groups), "{tally}");
    assert!(is_common(tally.full, tally.catalogues), "{tally}");
    assert!(tally.most > MAX_VIEWS / 2, "{tally}");
    assert!(tally.deepest > MAX_VIEWS / 2, "{tally}");
}

#[test]
fn every_refusal_comes_up() {
    let tally = damaged::run(&Proved, &mut Prng::new(SEED), 4_000).expect("no difference");
    assert!(tally.numbers.iter().all(|&calls| calls >= 10), "{tally}");
    // Wrong loose bits are refused between two others, so they come up often.
    assert!(tally.numbers[14] * 40 > tally.calls(), "{tally}");
    // So are false counts of class facts.
    assert!(tally.miscounted() * 40 > tally.calls(), "{tally}");
}
