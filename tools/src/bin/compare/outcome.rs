//! What a call leaves behind, and what the reference says it must leave.

use reference::calculus::Verdict;
use tools::answer::{Answerer, Out};
use tools::call::Call;
use tools::entries::definition::Said;

/// Words after the lent ones, which nothing may touch.
const GUARD: usize = 4;
const UNTOUCHED: u64 = 0xBEEF_0000_BEEF;
const UNTOUCHED_SET: u32 = 0xBEEF_BEEF;

/// The number returned, the out values, the sets of a check, the lent words and
/// those lent for an order, each with the guard.
#[derive(Clone, Debug, PartialEq, Eq)]
pub struct Outcome {
    pub number: u16,
    pub outs: [u64; 2],
    pub sets: [u32; 2],
    pub words: Vec<u16>,
    pub order: Vec<u16>,
}

/// What must come of a call.
pub enum Expected {
    Exactly(Outcome),
    /// This but for the out values: 0 for the objects, and of the object the papers say
    /// nothing.
    Held(Outcome),
    /// The papers leave the state and its two numbers free.
    Open,
}

impl Outcome {
    /// A call that alters nothing. The words differ from each other, so that
    /// moved ones are seen as well.
    pub fn untouched(call: &Call) -> Self {
        let words = |lent: usize| {
            let places = 0..lent + GUARD;
            let words = places.map(|place| (place as u16).wrapping_mul(40_503) ^ 0xBEEF);
            words.collect()
        };
        Outcome {
            number: 0,
            outs: [UNTOUCHED; 2],
            sets: [UNTOUCHED_SET; 2],
            words: words(call.lent),
            order: words(call.order),
        }
    }

    /// What the answerer leaves behind.
    pub fn of(tested: &dyn Answerer, call: &Call) -> Self {
        let mut outcome = Outcome::untouched(call);
        outcome.number = tested.answer(call, outcome.out(call));
        outcome
    }

    /// Where an answer is written, without the guards.
    fn out(&mut self, call: &Call) -> Out<'_> {
        Out {
            lent: &mut self.words[..call.lent],
            order: &mut self.order[..call.order],
            outs: &mut self.outs,
            sets: &mut self.sets,
        }
    }
}

/// What the reference answers.
pub fn expected(call: &Call) -> Expected {
    let mut outcome = Outcome::untouched(call);
    match (call.entry.reference)(call, outcome.out(call)) {
        Ok(Said::Value(value)) => outcome.outs[0] = value,
        Ok(Said::Verdict(Verdict::Held)) => return Expected::Held(outcome),
        Ok(Said::Verdict(Verdict::Open)) => return Expected::Open,
        Err(number) => outcome.number = number,
    }
    Expected::Exactly(outcome)
}
