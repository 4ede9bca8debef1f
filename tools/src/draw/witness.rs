//! Concepts that an object of a sketch is in, read off the sketch itself. In a
//! sketch that has little beyond what a query and the axioms force, such a
//! concept often holds the query.

use super::sketch::Sketch;
use crate::prng::Prng;
use bikuvoa::layout::token::{self, BACKWARD, BOTH, COMMON, EMPTY, EVERYTHING, FORWARD, REACHED};
use bikuvoa::layout::Pair;

/// How often a second walk to the same end is looked for.
const TRIES: usize = 8;

/// A concept of at most `budget` tokens and `steps` steps that has the object.
pub(super) fn tokens(
    prng: &mut Prng,
    sketch: &Sketch,
    object: usize,
    steps: usize,
    budget: usize,
) -> Vec<Pair> {
    let mut witness = Witness {
        prng,
        sketch,
        pairs: sketch.pairs(),
        steps,
        tokens: Vec::new(),
    };
    witness.concept(sketch.present(object), budget);
    witness.tokens
}

/// A step's token and the object on which it lands.
type Landing = (Pair, usize);

struct Witness<'a> {
    prng: &'a mut Prng,
    sketch: &'a Sketch,
    pairs: Vec<(u16, usize, usize)>,
    /// The steps that may still be used.
    steps: usize,
    tokens: Vec<Pair>,
}

impl Witness<'_> {
    fn concept(&mut self, object: usize, budget: usize) {
        match self.prng.below(10) {
            0..=2 if budget >= 3 => {
                let left = self.prng.between(1, budget - 2);
                self.concept(object, left);
                self.concept(object, budget - 1 - left);
                self.tokens.push(BOTH);
            }
            3..=7 if budget >= 4 => {
                let walk = self.walk(object, (budget - 2) / 2);
                self.path(&walk, budget - 1);
                self.tokens.push(REACHED);
            }
            8..=9 if budget >= 5 => self.common(object, budget),
            _ => {
                let leaf = self.leaf(object);
                self.tokens.push(leaf);
            }
        }
    }

    fn leaf(&mut self, object: usize) -> Pair {
        let classes = 0..self.sketch.signature().classes;
        let mut leaves: Vec<Pair> = classes
            .filter(|&class| self.sketch.is_in(object, class.into()))
            .map(token::class)
            .collect();
        leaves.extend(self.sketch.names(object).map(token::constant));
        match self.prng.pick(&leaves) {
            Some(leaf) if self.prng.chance(90) => leaf,
            _ => EVERYTHING,
        }
    }

    /// Two walks to one end: out and back with the empty path, or two apart.
    fn common(&mut self, object: usize, budget: usize) {
        let most = (budget - 3) / 4;
        let out = self.walk(object, most);
        let (left, right) = if self.prng.chance(40) && out.len() <= self.steps {
            (self.out_and_back(object, &out), Vec::new())
        } else {
            let right = self.walk_to(object, end(object, &out), most);
            (out, right)
        };
        let spare = budget - 3 - 2 * (left.len() + right.len());
        let share = self.prng.between(0, spare);
        self.path(&left, 1 + 2 * left.len() + share);
        self.path(&right, 1 + 2 * right.len() + spare - share);
        self.tokens.push(COMMON);
    }

    fn out_and_back(&mut self, object: usize, out: &[Landing]) -> Vec<Landing> {
        self.steps -= out.len();
        let starts: Vec<usize> = std::iter::once(object)
            .chain(out.iter().map(|&(_, landing)| landing))
            .collect();
        let back = out.iter().zip(&starts).rev();
        let back = back.map(|(&(step, _), &start)| (turned(step), start));
        out.iter().copied().chain(back).collect()
    }

    /// A walk of at most `most` steps, and of none only where none is left.
    fn walk(&mut self, object: usize, most: usize) -> Vec<Landing> {
        let most = most.min(self.steps);
        let length = self.prng.between(most.min(1), most);
        let mut walk = Vec::new();
        let mut at = object;
        while walk.len() < length {
            let Some(step) = self.step(at) else { break };
            walk.push(step);
            at = step.1;
        }
        self.steps -= walk.len();
        walk
    }

    /// A walk from the object to the given end. Where none is met by chance it
    /// is the empty one, and the concept may not have the object after all.
    fn walk_to(&mut self, object: usize, goal: usize, most: usize) -> Vec<Landing> {
        for _ in 0..TRIES {
            let walk = self.walk(object, most);
            if end(object, &walk) == goal {
                return walk;
            }
            self.steps += walk.len();
        }
        Vec::new()
    }

    /// A step along any pair that the object is in.
    fn step(&mut self, object: usize) -> Option<Landing> {
        let mut steps = Vec::new();
        for &(attribute, first, second) in &self.pairs {
            if first == object {
                steps.push((token::forward(attribute), second));
            }
            if second == object {
                steps.push((token::backward(attribute), first));
            }
        }
        self.prng.pick(&steps)
    }

    /// Puts the path along a walk, in at most `budget` tokens.
    fn path(&mut self, walk: &[Landing], budget: usize) {
        self.tokens.push(EMPTY);
        let mut spare = budget - 1 - 2 * walk.len();
        for &(step, landing) in walk {
            let more = self.prng.between(0, spare);
            spare -= more;
            self.concept(landing, 1 + more);
            self.tokens.push(step);
        }
    }
}

/// Where a walk from the object ends.
fn end(object: usize, walk: &[Landing]) -> usize {
    walk.last().map_or(object, |&(_, landing)| landing)
}

/// The step that leads back along the same pair.
fn turned((sort, attribute): Pair) -> Pair {
    match sort {
        FORWARD => (BACKWARD, attribute),
        _ => (FORWARD, attribute),
    }
}
