//! Answers to calls, and where they are written.

use crate::call::Call;

/// Where an answer is written. Only a catalogue has words lent for an order, only
/// decide has a second out value, and only the checks have sets, of classes and of
/// attributes.
pub struct Out<'a> {
    pub lent: &'a mut [u16],
    pub order: &'a mut [u16],
    pub outs: &'a mut [u64; 2],
    pub sets: &'a mut [u32; 2],
}

impl Out<'_> {
    /// The same, to be passed on without giving it away.
    pub fn reborrow(&mut self) -> Out<'_> {
        Out {
            lent: self.lent,
            order: self.order,
            outs: self.outs,
            sets: self.sets,
        }
    }
}

/// Room for what a call writes, or one after the other that has as many words lent.
pub struct Room {
    pub lent: Vec<u16>,
    order: Vec<u16>,
    pub outs: [u64; 2],
    sets: [u32; 2],
}

impl Room {
    pub fn of(call: &Call) -> Self {
        Room {
            lent: vec![0; call.lent],
            order: vec![0; call.order],
            outs: [0; 2],
            sets: [0; 2],
        }
    }

    pub fn out(&mut self) -> Out<'_> {
        Out {
            lent: &mut self.lent,
            order: &mut self.order,
            outs: &mut self.outs,
            sets: &mut self.sets,
        }
    }
}

/// Code that answers calls as include/bikuvoa.h says.
pub trait Answerer {
    /// Returns 0 or the refusal's number.
    fn answer(&self, call: &Call, out: Out) -> u16;
}
