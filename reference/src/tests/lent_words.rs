//! Refusal 11, and what a refusal leaves unaltered.

use super::write::{axioms_record, catalogue_record};
use crate::calculus::Verdict;
use crate::entries::{catalogue, decide, select};

const CLASS: [u16; 4] = [1, 0, 1, 0];
const EVERYTHING: [u16; 4] = [1, 0, 2, 0];

fn schema() -> Vec<u16> {
    axioms_record([1, 0, 0], &[])
}

#[test]
fn select_needs_a_word_for_each_object() {
    let mut lent = [9; 3];
    let all = select(&schema(), &EVERYTHING, &[3, 0, 0], &mut lent);
    assert_eq!((all, lent), (Ok(3), [1; 3]));
    let mut lent = [9; 2];
    let short = select(&schema(), &EVERYTHING, &[3, 0, 0], &mut lent);
    assert_eq!((short, lent), (Err(11), [9; 2]));
    assert_eq!(select(&schema(), &EVERYTHING, &[0, 0, 0], &mut []), Ok(0));
    assert_eq!(
        select(&schema(), &EVERYTHING, &[480, 0, 0], &mut [0; 479]),
        Err(11)
    );
    assert_eq!(
        select(&schema(), &EVERYTHING, &[480, 0, 0], &mut [0; 480]),
        Ok(480)
    );
}

#[test]
fn decide_needs_room_for_the_largest_state() {
    let held = |words| decide(&schema(), &CLASS, &EVERYTHING, words);
    let open = |words| decide(&schema(), &EVERYTHING, &CLASS, words);
    assert_eq!(held(30_771), Ok(Verdict::Held));
    assert_eq!(held(40_000), Ok(Verdict::Held));
    assert_eq!(held(30_770), Err(11));
    assert_eq!(open(30_771), Ok(Verdict::Open));
    assert_eq!(open(30_770), Err(11));
    assert_eq!(open(0), Err(11));
}

#[test]
fn a_refused_selection_writes_nothing() {
    let mut lent = [9; 3];
    assert_eq!(select(&[], &EVERYTHING, &[3, 0, 0], &mut lent), Err(1));
    assert_eq!(select(&schema(), &[], &[3, 0, 0], &mut lent), Err(3));
    assert_eq!(select(&schema(), &EVERYTHING, &[3], &mut lent), Err(7));
    let miscounted = select(&schema(), &EVERYTHING, &[3, 0, 1], &mut lent);
    assert_eq!(miscounted, Err(15));
    assert_eq!(lent, [9; 3]);
}

/// Of both the first 16 words are written, however few views there are.
#[test]
fn a_catalogue_needs_16_words_for_rows_and_for_order() {
    let views = catalogue_record(&[EVERYTHING, CLASS]);
    let (mut rows, mut order) = ([9; 18], [9; 17]);
    let groups = catalogue(&schema(), &views, &mut rows, &mut order);
    assert_eq!(groups, Ok(2));
    assert_eq!(rows[..2], [0b01, 0b11]);
    assert_eq!(order[..2], [0b10, 0b01]);
    assert_eq!(rows[2..], [[0; 14].as_slice(), &[9; 2]].concat());
    assert_eq!(order[2..], [[0; 14].as_slice(), &[9]].concat());
    for (few, enough) in [(15, 16), (2, 18), (0, 16)] {
        let (mut rows, mut order) = (vec![9; few], vec![9; enough]);
        let short = catalogue(&schema(), &views, &mut rows, &mut order);
        assert_eq!(short, Err(11));
        let short = catalogue(&schema(), &views, &mut order, &mut rows);
        assert_eq!(short, Err(11));
        assert_eq!((rows, order), (vec![9; few], vec![9; enough]));
    }
}

#[test]
fn a_refused_catalogue_writes_nothing() {
    let (mut rows, mut order) = ([9; 16], [9; 16]);
    let bad_pile = [1, 0, 5, 0];
    for (views, number) in [
        (catalogue_record(&[CLASS; 17]), 13),
        (catalogue_record(&[CLASS, bad_pile]), 5),
    ] {
        let refused = catalogue(&schema(), &views, &mut rows, &mut order);
        assert_eq!(refused, Err(number));
        assert_eq!((rows, order), ([9; 16], [9; 16]));
    }
}
