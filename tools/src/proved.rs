//! The proved code, as its bindings call it.

use crate::answer::{Answerer, Out};
use crate::call::Call;

/// The library that `tools/build bikuvoa_c` builds.
pub struct Proved;

impl Answerer for Proved {
    fn answer(&self, call: &Call, out: Out) -> u16 {
        (call.entry.proved)(call, out)
    }
}
