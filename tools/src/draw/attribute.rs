//! Random numbers of attributes.

use crate::prng::Prng;
use crate::word;
use bikuvoa::layout::Signature;

/// A declared one, or nothing if there is none.
pub fn declared(prng: &mut Prng, signature: Signature) -> Option<u16> {
    (signature.attributes > 0).then(|| prng.word_below(signature.attributes))
}

/// One that is not declared: the lowest, the highest, or any.
pub fn undeclared(prng: &mut Prng, signature: Signature) -> u16 {
    let lowest = signature.attributes;
    let any = word(prng.between(lowest.into(), u16::MAX.into()));
    prng.one_of([lowest, u16::MAX, any])
}
