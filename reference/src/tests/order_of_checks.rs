//! The order in which what one call passes is checked.

use super::write::{axioms_record, catalogue_record, facts_record, loose_record};
use crate::calculus::Verdict;
use crate::entries::{catalogue, check_concept, check_query, check_view, counterexample, decide};
use crate::entries::{holds, legal, links_by_first, links_by_second, select, Counterexample};

const CLASS: [u16; 4] = [1, 0, 1, 0];
const EVERYTHING: [u16; 4] = [1, 0, 2, 0];
const BAD_TOKEN: [u16; 4] = [1, 0, 1, 1];
const BAD_PILE: [u16; 4] = [1, 0, 5, 0];
const BAD_STEPS: [u16; 4] = [1, 1, 2, 0];
const BAD_STATE: [u16; 3] = [1, 0, 0];
/// With no object for the constant as well.
const BAD_COUNT: [u16; 3] = [1, 0, 1];

/// Not declared, as the schema declares no attribute.
const ATTRIBUTE: u16 = 0;

fn schema() -> Vec<u16> {
    axioms_record([1, 0, 1], &[])
}

fn bad_axiom() -> Vec<u16> {
    axioms_record([1, 0, 1], &[(0, 0)])
}

/// With a bad axiom as well.
fn bad_loose() -> Vec<u16> {
    loose_record([1, 0, 1], 0b10, &[(0, 0)])
}

fn state() -> Vec<u16> {
    facts_record(1, &[(32 * 512, 0)])
}

#[test]
fn the_schema_comes_first() {
    for check in [check_concept, check_query, check_view] {
        assert_eq!(check(&[], &[]), Err(1));
        assert_eq!(check(&bad_axiom(), &[]), Err(2));
        assert_eq!(check(&bad_axiom(), &BAD_STEPS), Err(2));
        assert_eq!(check(&bad_loose(), &[]), Err(14));
    }
    assert_eq!(select(&[], &[], &[], &mut []), Err(1));
    assert_eq!(select(&bad_axiom(), &[], &[], &mut []), Err(2));
    assert_eq!(select(&bad_loose(), &[], &[], &mut []), Err(14));
    assert_eq!(legal(&bad_axiom(), &[]), Err(2));
    assert_eq!(legal(&bad_loose(), &[]), Err(14));
    assert_eq!(counterexample(&[1], &[], &[], &[]), Err(1));
    assert_eq!(counterexample(&bad_loose(), &[], &[], &[]), Err(14));
    for links in [links_by_first, links_by_second] {
        assert_eq!(links(&[], &[], &[], ATTRIBUTE), Err(1));
        assert_eq!(links(&bad_axiom(), &[], &[], ATTRIBUTE), Err(2));
        assert_eq!(links(&bad_loose(), &[], &[], ATTRIBUTE), Err(14));
    }
    assert_eq!(decide(&bad_axiom(), &[], &[], 0), Err(2));
    assert_eq!(decide(&bad_loose(), &[], &[], 0), Err(14));
    assert_eq!(holds(&[], &[], &[]), Err(1));
    assert_eq!(holds(&bad_axiom(), &[], &[]), Err(2));
    assert_eq!(holds(&bad_loose(), &[], &[]), Err(14));
    assert_eq!(catalogue(&[], &[], &mut [], &mut []), Err(1));
    assert_eq!(catalogue(&bad_axiom(), &[], &mut [], &mut []), Err(2));
    assert_eq!(catalogue(&bad_loose(), &[], &mut [], &mut []), Err(14));
}

/// Each refusal is looked for before the next: a record with several faults.
#[test]
fn the_concept_is_checked_by_itself() {
    for check in [check_concept, check_query, check_view] {
        assert_eq!(check(&schema(), &[]), Err(3));
        assert_eq!(check(&schema(), &[1, 1, 1, 1, 5]), Err(3));
        assert_eq!(check(&schema(), &[1, 1, 1, 1]), Err(4));
        assert_eq!(check(&schema(), &[1, 1, 5, 0]), Err(5));
        assert_eq!(check(&schema(), &[1, 1, 1, 0]), Err(6));
        assert!(check(&schema(), &CLASS).is_ok());
    }
}

#[test]
fn the_concept_comes_before_the_state() {
    assert_eq!(select(&schema(), &BAD_PILE, &[], &mut []), Err(5));
    for state in [BAD_STATE, BAD_COUNT] {
        assert_eq!(select(&schema(), &BAD_STEPS, &state, &mut []), Err(6));
    }
    for links in [links_by_first, links_by_second] {
        assert_eq!(links(&schema(), &BAD_PILE, &[], ATTRIBUTE), Err(5));
        for state in [BAD_STATE, BAD_COUNT] {
            assert_eq!(links(&schema(), &BAD_STEPS, &state, ATTRIBUTE), Err(6));
        }
    }
}

#[test]
fn the_query_comes_before_the_view() {
    assert_eq!(decide(&schema(), &BAD_STEPS, &[], 0), Err(6));
    assert_eq!(decide(&schema(), &BAD_PILE, &BAD_TOKEN, 0), Err(5));
    assert_eq!(holds(&schema(), &BAD_STEPS, &[]), Err(6));
    assert_eq!(holds(&schema(), &BAD_PILE, &BAD_TOKEN), Err(5));
    assert_eq!(
        counterexample(&schema(), &BAD_STEPS, &BAD_PILE, &[]),
        Err(6)
    );
}

#[test]
fn the_view_comes_before_the_state_and_the_lent_words() {
    assert_eq!(counterexample(&schema(), &CLASS, &BAD_TOKEN, &[]), Err(4));
    for state in [BAD_STATE, BAD_COUNT] {
        assert_eq!(counterexample(&schema(), &CLASS, &[], &state), Err(3));
    }
    assert_eq!(decide(&schema(), &CLASS, &BAD_STEPS, 0), Err(6));
    assert_eq!(decide(&schema(), &CLASS, &CLASS, 0), Err(11));
    assert_eq!(holds(&schema(), &CLASS, &BAD_STEPS), Err(6));
    assert_eq!(holds(&schema(), &CLASS, &CLASS), Ok(Verdict::Held));
}

/// The layout, then one view after the other, then the lent words.
#[test]
fn the_catalogue_comes_before_its_views_and_they_before_the_lent_words() {
    let refusal = |views: &[[u16; 4]]| {
        let views = catalogue_record(views);
        catalogue(&schema(), &views, &mut [0; 15], &mut [0; 16])
    };
    assert_eq!(refusal(&[]), Err(13));
    assert_eq!(refusal(&[BAD_TOKEN; 17]), Err(13));
    assert_eq!(refusal(&[BAD_STEPS, BAD_PILE, BAD_TOKEN]), Err(6));
    assert_eq!(refusal(&[CLASS, BAD_PILE, BAD_TOKEN]), Err(5));
    assert_eq!(refusal(&[EVERYTHING, CLASS, BAD_TOKEN]), Err(4));
    assert_eq!(refusal(&[EVERYTHING, CLASS]), Err(11));
}

#[test]
fn the_state_comes_before_the_lent_words() {
    for (state, number) in [(BAD_STATE, 10), (BAD_COUNT, 15)] {
        let refused = select(&schema(), &CLASS, &state, &mut []);
        assert_eq!(refused, Err(number));
        assert_eq!(legal(&schema(), &state), Err(number));
        let refused = counterexample(&schema(), &CLASS, &CLASS, &state);
        assert_eq!(refused, Err(number));
    }
    assert_eq!(select(&schema(), &CLASS, &[1], &mut []), Err(7));
    assert_eq!(select(&schema(), &CLASS, &state(), &mut []), Err(11));
}

#[test]
fn the_state_comes_before_the_attribute() {
    for links in [links_by_first, links_by_second] {
        assert_eq!(links(&schema(), &CLASS, &[1], ATTRIBUTE), Err(7));
        assert_eq!(links(&schema(), &CLASS, &BAD_STATE, ATTRIBUTE), Err(10));
        assert_eq!(links(&schema(), &CLASS, &BAD_COUNT, ATTRIBUTE), Err(15));
        assert_eq!(links(&schema(), &CLASS, &state(), ATTRIBUTE), Err(12));
    }
}

#[test]
fn counterexamples_need_a_legal_state() {
    let needs = axioms_record([1, 1, 0], &[(3 * 256, 0)]);
    let open = [2, 0, 0];
    let yes = counterexample(&needs, &EVERYTHING, &CLASS, &open);
    assert_eq!(yes, Ok(Counterexample::Yes(0)));
    let illegal = facts_record(2, &[(0, 0)]);
    let no = counterexample(&needs, &EVERYTHING, &CLASS, &illegal);
    assert_eq!(no, Ok(Counterexample::No));
}

#[test]
fn the_lowest_separating_object_is_told() {
    let free = axioms_record([1, 0, 0], &[]);
    let first_in = facts_record(3, &[(0, 0)]);
    let yes = counterexample(&free, &EVERYTHING, &CLASS, &first_in);
    assert_eq!(yes, Ok(Counterexample::Yes(1)));
    let no = counterexample(&free, &CLASS, &EVERYTHING, &first_in);
    assert_eq!(no, Ok(Counterexample::No));
}
