//! What judges a state: select, legal and counterexample.

use super::definition::{Definition, Said};
use crate::call::Place;
use crate::inputs::{concepts, put_dense, states, Size};
use bikuvoa::raw;
use reference::entries::{self, Counterexample, Legality};

pub const SELECT: Definition = Definition {
    name: "select",
    places: &[Place::Schema, Place::Query, Place::State, Place::Lent],
    takes_marks: false,
    least_lent: |objects| objects,
    least_order: 0,
    proved: |call, out| {
        let [selected, _] = out.outs;
        raw::select(&call.schema, &call.query, &call.state, out.lent, selected)
    },
    reference: |call, out| {
        let selected = entries::select(&call.schema, &call.query, &call.state, out.lent)?;
        Ok(Said::Value(selected.into()))
    },
    adapt: |size, call| match size {
        Size::Small => call.query = concepts::there_and_back(),
        Size::Largest => put_dense(call),
        _ => {}
    },
};

pub const LEGAL: Definition = Definition {
    name: "legal",
    places: &[Place::Schema, Place::State],
    takes_marks: false,
    least_lent: |_| 0,
    least_order: 0,
    proved: |call, out| {
        let [broken, _] = out.outs;
        raw::legal(&call.schema, &call.state, broken)
    },
    reference: |call, _| {
        let legality = entries::legal(&call.schema, &call.state)?;
        Ok(Said::Value(match legality {
            Legality::Legal => 0,
            Legality::Broken(place) => u64::from(place) + 1,
        }))
    },
    adapt: |_, _| {},
};

pub const COUNTEREXAMPLE: Definition = Definition {
    name: "counterexample",
    places: &[Place::Schema, Place::Query, Place::View, Place::State],
    takes_marks: true,
    least_lent: |_| 0,
    least_order: 0,
    proved: |call, out| {
        let [found, _] = out.outs;
        raw::counterexample(&call.schema, &call.query, &call.view, &call.state, found)
    },
    reference: |call, _| {
        let found = entries::counterexample(&call.schema, &call.query, &call.view, &call.state)?;
        Ok(Said::Value(match found {
            Counterexample::No => 0,
            Counterexample::Yes(object) => u64::from(object) + 1,
        }))
    },
    adapt: |size, call| match size {
        Size::Largest => put_dense(call),
        Size::LargestMarks => {
            call.query = concepts::marked_paths();
            call.state = states::choosing(states::dense(1));
        }
        _ => {}
    },
};
