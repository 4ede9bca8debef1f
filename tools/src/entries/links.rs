//! The counts of links.

use super::definition::{Definition, Said};
use crate::call::Place;
use crate::inputs::{concepts, put_dense, Size};
use bikuvoa::raw;
use reference::entries;

pub const BY_FIRST: Definition = Definition {
    name: "links_by_first",
    places: &[Place::Schema, Place::Query, Place::State, Place::Attribute],
    takes_marks: false,
    least_lent: |_| 0,
    least_order: 0,
    proved: |call, out| {
        let [links, _] = out.outs;
        raw::links_by_first(
            &call.schema,
            &call.query,
            &call.state,
            call.attribute,
            links,
        )
    },
    reference: |call, _| {
        let links =
            entries::links_by_first(&call.schema, &call.query, &call.state, call.attribute)?;
        Ok(Said::Value(links))
    },
    adapt: |size, call| match size {
        Size::Small => call.query = concepts::wearers(),
        // The report's query selects no object, so links are counted from other
        // patients.
        Size::Middle => call.query = concepts::treated(),
        Size::Largest => put_dense(call),
        _ => {}
    },
};

pub const BY_SECOND: Definition = Definition {
    name: "links_by_second",
    proved: |call, out| {
        let [links, _] = out.outs;
        raw::links_by_second(
            &call.schema,
            &call.query,
            &call.state,
            call.attribute,
            links,
        )
    },
    reference: |call, _| {
        let links =
            entries::links_by_second(&call.schema, &call.query, &call.state, call.attribute)?;
        Ok(Said::Value(links))
    },
    ..BY_FIRST
};
