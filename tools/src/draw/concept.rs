//! Random concepts, as tokens in postfix order.

use super::Scale;
use crate::prng::Prng;
use bikuvoa::layout::token::{self, BOTH, COMMON, EMPTY, EVERYTHING, REACHED};
use bikuvoa::layout::{Pair, Signature, MAX_MARKS, MAX_TOKENS};

/// A concept over the signature with at most the given steps.
pub(super) fn tokens(
    prng: &mut Prng,
    signature: Signature,
    steps: usize,
    scale: Scale,
) -> Vec<Pair> {
    let budget = budget(prng, scale);
    let mut draft = Draft {
        prng,
        signature,
        steps,
        tokens: Vec::new(),
    };
    draft.concept(budget);
    draft.tokens
}

/// How many tokens a concept may have.
pub(super) fn budget(prng: &mut Prng, scale: Scale) -> usize {
    match (scale, prng.below(10)) {
        (_, 0) => prng.between(1, 4),
        (Scale::Small, 1..=6) => prng.between(4, 16),
        (Scale::Small, _) => prng.between(8, 32),
        (Scale::Large, _) => prng.between(16, MAX_TOKENS),
    }
}

/// A concept that asks nothing but a class, a constant or nothing at all.
fn leaf(prng: &mut Prng, signature: Signature) -> Pair {
    match prng.below(12) {
        0..=7 if signature.classes > 0 => token::class(prng.word_below(signature.classes)),
        8..=10 if signature.constants > 0 => constant(prng, signature),
        _ => EVERYTHING,
    }
}

/// Any of the constants, of which there must be one.
fn constant(prng: &mut Prng, signature: Signature) -> Pair {
    token::constant(prng.word_below(signature.constants))
}

/// The query with one to four marks: for leaves, beside them, so beside constants
/// as well, and beside other concepts. Few places or many have the same mark.
pub(super) fn marked(prng: &mut Prng, query: &[Pair]) -> Vec<Pair> {
    let mut marks: Vec<Pair> = (0..MAX_MARKS).map(token::mark).collect();
    prng.shuffle(&mut marks);
    marks.truncate(prng.one_of([1, 2, 2, 3, 4, 4]));
    let percent = prng.one_of([20, 40, 80]);
    let mut tokens: Vec<Pair> = Vec::new();
    let mut room = MAX_TOKENS - query.len();
    for &token in query {
        tokens.push(token);
        let mark = marks[prng.below(marks.len())];
        if !puts_concept(token) || !prng.chance(percent) {
            continue;
        }
        if token::is_leaf(token) && (room < 2 || prng.chance(50)) {
            tokens.pop();
            tokens.push(mark);
        } else if room >= 2 {
            tokens.extend([mark, BOTH]);
            room -= 2;
        }
    }
    let is_marked = tokens.iter().any(|&(sort, _)| sort == token::MARK);
    if !is_marked && room >= 2 {
        tokens.extend([marks[0], BOTH]);
    }
    tokens
}

fn puts_concept(token: Pair) -> bool {
    token::is_leaf(token) || [BOTH, REACHED, COMMON].contains(&token)
}

struct Draft<'a> {
    prng: &'a mut Prng,
    signature: Signature,
    /// The steps that may still be used.
    steps: usize,
    tokens: Vec<Pair>,
}

impl Draft<'_> {
    /// Puts a concept of at most `budget` tokens, which is not 0.
    fn concept(&mut self, budget: usize) {
        match self.prng.below(10) {
            0..=2 if budget >= 3 => {
                let left = self.prng.between(1, budget - 2);
                self.concept(left);
                self.concept(budget - 1 - left);
                self.tokens.push(BOTH);
            }
            3..=6 if budget >= 4 => {
                self.path(budget - 1);
                self.tokens.push(REACHED);
            }
            7..=8 if budget >= 5 => {
                let left = self.prng.between(1, budget - 2);
                self.path(left);
                self.path(budget - 1 - left);
                self.tokens.push(COMMON);
            }
            // Two constants at once, so that they are one object or clash.
            _ if budget >= 3 && self.signature.constants > 1 && self.prng.chance(40) => {
                let two = [(); 2].map(|()| constant(self.prng, self.signature));
                self.tokens.extend(two);
                self.tokens.push(BOTH);
            }
            _ => self.tokens.push(leaf(self.prng, self.signature)),
        }
    }

    /// Puts a path of at most `budget` tokens, which is not 0.
    fn path(&mut self, budget: usize) {
        let room = budget >= 3 && self.steps > 0 && self.signature.attributes > 0;
        if !room || self.prng.chance(10) {
            self.tokens.push(EMPTY);
            return;
        }
        self.steps -= 1;
        // The lower of two numbers, so that paths come out long rather than
        // their landings large.
        let most = budget - 2;
        let landing = self.prng.between(1, most).min(self.prng.between(1, most));
        self.path(budget - 1 - landing);
        self.concept(landing);
        let attribute = self.prng.word_below(self.signature.attributes);
        self.tokens.push(if self.prng.chance(65) {
            token::forward(attribute)
        } else {
            token::backward(attribute)
        });
    }
}
