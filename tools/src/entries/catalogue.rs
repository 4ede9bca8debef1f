//! The order of a catalogue's views.

use super::definition::{Definition, Said};
use crate::call::Place;
use bikuvoa::layout::MAX_VIEWS;
use bikuvoa::raw;
use reference::entries;

pub const CATALOGUE: Definition = Definition {
    name: "catalogue",
    places: &[Place::Schema, Place::Catalogue, Place::Rows, Place::Order],
    takes_marks: false,
    least_lent: |_| MAX_VIEWS,
    least_order: MAX_VIEWS,
    proved: |call, out| {
        let [groups, _] = out.outs;
        raw::catalogue(&call.schema, &call.catalogue, out.lent, out.order, groups)
    },
    reference: |call, out| {
        let groups = entries::catalogue(&call.schema, &call.catalogue, out.lent, out.order)?;
        Ok(Said::Value(groups))
    },
    adapt: |_, _| {},
};
