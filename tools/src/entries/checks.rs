//! The checks of a concept by itself.

use super::definition::{Definition, Said};
use crate::answer::Out;
use crate::call::Place;
use crate::inputs::{concepts, Size};
use bikuvoa::layout::{QUERY_STEPS, VIEW_STEPS};
use bikuvoa::raw;
use reference::entries;
use reference::names::Named;
use std::collections::BTreeSet;

pub const CONCEPT: Definition = Definition {
    name: "check_concept",
    places: &[Place::Schema, Place::Query],
    takes_marks: false,
    least_lent: |_| 0,
    least_order: 0,
    proved: |call, out| {
        let ([classes, attributes], [named, _]) = (out.sets, out.outs);
        raw::check_concept(&call.schema, &call.query, classes, attributes, named)
    },
    reference: |call, out| {
        let named = entries::check_concept(&call.schema, &call.query)?;
        Ok(tell(&named, out))
    },
    adapt: |size, call| match size {
        Size::Small => call.query = concepts::there_and_back(),
        Size::Largest => {
            call.query = concepts::all_named(QUERY_STEPS);
            call.view = concepts::all_named(VIEW_STEPS);
        }
        _ => {}
    },
};

pub const QUERY: Definition = Definition {
    name: "check_query",
    takes_marks: true,
    proved: |call, out| {
        let ([classes, attributes], [named, _]) = (out.sets, out.outs);
        raw::check_query(&call.schema, &call.query, classes, attributes, named)
    },
    reference: |call, out| {
        let named = entries::check_query(&call.schema, &call.query)?;
        Ok(tell(&named, out))
    },
    ..CONCEPT
};

pub const VIEW: Definition = Definition {
    name: "check_view",
    places: &[Place::Schema, Place::View],
    proved: |call, out| {
        let ([classes, attributes], [named, _]) = (out.sets, out.outs);
        raw::check_view(&call.schema, &call.view, classes, attributes, named)
    },
    reference: |call, out| {
        let named = entries::check_view(&call.schema, &call.view)?;
        Ok(tell(&named, out))
    },
    ..CONCEPT
};

/// Writes the sets; the out value is how many classes are named.
fn tell(named: &Named, out: Out) -> Said {
    *out.sets = [bits(&named.classes), bits(&named.attributes)];
    Said::Value(named.classes.len() as u64)
}

/// A set as a word: bit n, counted from the lowest, is 1 exactly if n is in it.
fn bits(set: &BTreeSet<usize>) -> u32 {
    set.iter().map(|number| 1 << number).sum()
}
