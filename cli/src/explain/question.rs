//! A query, a view and a schema as records, and what the library says of them.

use crate::fault::Fault;
use bikuvoa::{Decision, Object, Refusal};

/// The records of one question.
#[derive(Clone, Debug)]
pub struct Question {
    pub schema: Vec<u16>,
    pub query: Vec<u16>,
    pub view: Vec<u16>,
}

impl Question {
    pub fn decide(&self) -> Decision {
        bikuvoa::decide(&self.schema, &self.query, &self.view)
    }

    pub fn is_held(&self) -> Result<bool, Fault> {
        bikuvoa::holds(&self.schema, &self.query, &self.view).map_err(refused)
    }

    /// The object that makes the state a counterexample. A state that is refused
    /// is none.
    pub fn shown_by(&self, state: &[u16]) -> Option<Object> {
        bikuvoa::counterexample(&self.schema, &self.query, &self.view, state).unwrap_or(None)
    }
}

/// A record made here that the library refuses, which a checked file rules out.
pub fn refused(refusal: Refusal) -> Fault {
    Fault::of(format!("the explanation {refusal}"))
}
