//! What tells whether a view holds a query: decide and holds.

use super::definition::{Definition, Said};
use crate::call::Place;
use crate::inputs::{concepts, schemas, Size};
use bikuvoa::layout::DECIDE_WORDS;
use bikuvoa::raw;
use reference::calculus::Verdict;
use reference::entries;

pub const DECIDE: Definition = Definition {
    name: "decide",
    places: &[Place::Schema, Place::Query, Place::View, Place::Lent],
    takes_marks: true,
    least_lent: |_| DECIDE_WORDS,
    least_order: 0,
    proved: |call, out| {
        let [objects, object] = out.outs;
        raw::decide(
            &call.schema,
            &call.query,
            &call.view,
            out.lent,
            objects,
            object,
        )
    },
    reference: |call, out| {
        let lent = out.lent.len();
        let verdict = entries::decide(&call.schema, &call.query, &call.view, lent)?;
        Ok(Said::Verdict(verdict))
    },
    adapt: |size, call| match size {
        // Document 01's triple of a need and a view that steps forward and back.
        Size::Small => call.schema = schemas::need(),
        Size::Largest => {
            call.query = concepts::star();
            call.view = concepts::six_needs();
        }
        _ => {}
    },
};

pub const HOLDS: Definition = Definition {
    name: "holds",
    places: &[Place::Schema, Place::Query, Place::View],
    least_lent: |_| 0,
    proved: |call, out| {
        let [held, _] = out.outs;
        raw::holds(&call.schema, &call.query, &call.view, held)
    },
    reference: |call, _| {
        let verdict = entries::holds(&call.schema, &call.query, &call.view)?;
        Ok(Said::Value(u64::from(verdict == Verdict::Held)))
    },
    ..DECIDE
};
