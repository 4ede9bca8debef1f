//! Verdicts with loose constants, put as records: constants merge where they must
//! be one object, and only two that are not loose clash.

use super::build::{both, class, forward};
use super::declared::{all, constant, declared, to, verdict, A, B, P, Q, SINGLE};
use super::write::{self, catalogue_record};
use crate::calculus::Verdict::{self, Held, Open};
use crate::entries::catalogue;
use crate::syntax::Concept;

/// The verdict without axioms.
fn under(loose: &[usize], query: &Concept, view: &Concept) -> Verdict {
    verdict(&declared(loose, &[]), query, view)
}

/// Every choice from the four constants.
fn choices() -> impl Iterator<Item = Vec<usize>> {
    (0..16).map(|word| {
        (0..4)
            .filter(|constant| word >> constant & 1 == 1)
            .collect()
    })
}

/// A view that nothing is forced into holds only what is empty.
#[test]
fn two_constants_at_once_have_an_object_if_one_is_loose() {
    for loose in choices() {
        for one in 0..4 {
            for other in 0..4 {
                let may_be_one = one == other || loose.contains(&one) || loose.contains(&other);
                let expected = if may_be_one { Open } else { Held };
                let query = both(constant(one), constant(other));
                let verdict = under(&loose, &query, &class(A));
                assert_eq!(verdict, expected, "{loose:?}, {one}, {other}");
            }
        }
    }
}

#[test]
fn constants_that_need_not_be_one_stay_apart() {
    for loose in choices() {
        for view in 1..4 {
            assert_eq!(under(&loose, &constant(0), &constant(view)), Open);
        }
        assert_eq!(under(&loose, &constant(0), &constant(0)), Held);
    }
}

/// Constants 0 and 1 are not loose, 2 and 3 are. In any order, at once or in
/// places apart, and with a fourth between.
#[test]
fn two_that_are_not_loose_clash_through_a_third() {
    let orders = [
        [0, 1, 2],
        [0, 2, 1],
        [1, 0, 2],
        [1, 2, 0],
        [2, 0, 1],
        [2, 1, 0],
    ];
    for [first, second, third] in orders {
        let query = all(&[first, second, third].map(constant));
        assert_eq!(under(&[2], &query, &class(A)), Held);
        assert_eq!(under(&[1, 2], &query, &class(A)), Open);
        let pair = |one, other| both(constant(one), constant(other));
        let apart = both(
            to(forward(P), pair(first, second)),
            to(forward(Q), pair(second, third)),
        );
        assert_eq!(under(&[2], &apart, &class(A)), Held);
        assert_eq!(under(&[0, 2], &apart, &class(A)), Open);
    }
    let chain = [(0, 2), (2, 3), (3, 1)].map(|(one, other)| {
        let pair = both(constant(one), constant(other));
        to(forward(P), pair)
    });
    assert_eq!(under(&[2, 3], &all(&chain), &class(A)), Held);
    for length in 1..3 {
        assert_eq!(under(&[2, 3], &all(&chain[..length]), &class(A)), Open);
    }
}

/// An object of A with constants 0 and 1 as values of P.
#[test]
fn single_values_that_are_constants_merge() {
    let values = [0, 1].map(|value| to(forward(P), constant(value)));
    let query = both(class(A), all(&values));
    let one_value = to(forward(P), both(constant(0), constant(1)));
    for loose in choices() {
        let clashes = !loose.contains(&0) && !loose.contains(&1);
        let schema = declared(&loose, &[SINGLE]);
        let expected = if clashes { Held } else { Open };
        assert_eq!(verdict(&schema, &query, &class(B)), expected, "{loose:?}");
        assert_eq!(verdict(&schema, &query, &one_value), Held, "{loose:?}");
        assert_eq!(under(&loose, &query, &one_value), Open, "{loose:?}");
    }
}

/// With a third value that may be each of the others, which may not be one.
#[test]
fn single_values_that_are_not_loose_clash_beside_a_loose_one() {
    let values = [0, 1, 2].map(|value| to(forward(P), constant(value)));
    let query = both(class(A), all(&values));
    for loose in choices() {
        let others = (0..3).filter(|value| !loose.contains(value)).count();
        let expected = if others > 1 { Held } else { Open };
        let schema = declared(&loose, &[SINGLE]);
        assert_eq!(verdict(&schema, &query, &class(B)), expected, "{loose:?}");
    }
}

/// Constant 0, with constant 1 in class A elsewhere and a value of Q there; the
/// two are one object if a value of P is both of them.
#[test]
fn what_one_constant_has_the_merged_object_has() {
    let elsewhere = both(class(A), to(forward(Q), constant(3)));
    let elsewhere = to(forward(Q), both(constant(1), elsewhere));
    let query = both(constant(0), elsewhere);
    let merging = both(
        query.clone(),
        to(forward(P), both(constant(0), constant(1))),
    );
    let views = [
        class(A),
        constant(1),
        both(constant(1), constant(0)),
        to(forward(Q), constant(3)),
        to(forward(Q), to(forward(P), constant(1))),
        to(forward(P), class(A)),
    ];
    for loose in [&[0][..], &[1], &[0, 1], &[0, 1, 2, 3]] {
        for view in &views {
            assert_eq!(under(loose, &query, view), Open, "{loose:?}, {view:?}");
            assert_eq!(under(loose, &merging, view), Held, "{loose:?}, {view:?}");
        }
        assert_eq!(under(loose, &merging, &class(B)), Open, "{loose:?}");
        assert_eq!(under(loose, &merging, &constant(2)), Open, "{loose:?}");
    }
}

/// Constants 0 and 1 are one object, so its values of P are 2 and 3, which must be
/// one object then.
#[test]
fn a_merge_leads_to_the_next() {
    let one = all(&[constant(0), class(A), to(forward(P), constant(2))]);
    let other = both(constant(1), to(forward(P), both(constant(3), class(B))));
    let both_are = to(forward(Q), both(constant(0), constant(1)));
    let query = all(&[one, to(forward(Q), other), both_are]);
    let schema = |loose: &[usize]| declared(loose, &[SINGLE]);
    let view = to(forward(P), both(constant(2), class(B)));
    assert_eq!(verdict(&schema(&[1, 3]), &query, &view), Held);
    assert_eq!(verdict(&schema(&[1, 3]), &query, &class(B)), Open);
    assert_eq!(verdict(&schema(&[1]), &query, &class(B)), Held);
    assert_eq!(under(&[1, 3], &query, &view), Open);
}

/// An empty view is held by every other; one that is not is not.
#[test]
fn a_view_of_two_constants_in_a_catalogue() {
    let views = [both(constant(0), constant(1)), class(A), constant(1)];
    let views = catalogue_record(&views.each_ref().map(write::concept));
    for (loose, row) in [
        (&[][..], 0b111),
        (&[0], 0b101),
        (&[1], 0b101),
        (&[2], 0b111),
    ] {
        let schema = write::schema(&declared(loose, &[]));
        let (mut rows, mut order) = ([0; 16], [0; 16]);
        assert_eq!(catalogue(&schema, &views, &mut rows, &mut order), Ok(3));
        assert_eq!(rows[..3], [row, 0b010, 0b100], "{loose:?}");
    }
}
