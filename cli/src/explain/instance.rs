//! A counterexample as it is shown: small, with the object as number 0, and with names.

use super::facts::Facts;
use super::named;
use super::order;
use super::question::Question;
use super::shrink::shrink;
use crate::fault::Fault;
use crate::model::{File, QueryClass, StateFrame};
use bikuvoa::{Object, State};

/// The object that the answer is about.
pub const OBJECT: Object = Object(0);

#[derive(Clone, Debug)]
pub struct Instance {
    pub facts: Facts,
    pub frame: StateFrame,
}

impl Instance {
    /// Made from what the library wrote. The library is asked about it once more, as it
    /// is shown.
    pub fn of(
        file: &File,
        query: &QueryClass,
        question: &Question,
        (state, object): (State, Object),
        progress: &mut dyn FnMut(&str),
    ) -> Result<Instance, Fault> {
        let shrunk = shrink(question, Facts::of(&state), object, progress);
        let facts = order::from_object(&shrunk.facts, shrunk.object);
        if question.shown_by(&facts.words()) != Some(OBJECT) {
            return Err(Fault::of("the state to be shown is no counterexample"));
        }
        let frame = named::frame(file, query, &facts);
        Ok(Instance { facts, frame })
    }
}
