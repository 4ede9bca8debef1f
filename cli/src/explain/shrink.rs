//! A counterexample made smaller, as long as the library says that it is one: by
//! leaving out objects and facts, many at once at first, and single ones in the end.

use super::facts::Facts;
use super::question::Question;
use bikuvoa::Object;
use std::ops::Range;

/// Progress is told after so many calls.
const CALLS_PER_LINE: usize = 1000;

/// Runs of so many or more are tried again as long as that helps: it takes few calls,
/// and what is left out late may have held what was tried before it.
const LONG_RUN: usize = 16;

/// A counterexample of which no single object and no single fact can be left out.
#[derive(Clone, Debug)]
pub struct Shrunk {
    pub facts: Facts,
    pub object: Object,
    /// How often the library was asked.
    pub calls: usize,
}

/// Makes the counterexample, which has that object, smaller.
pub fn shrink(
    question: &Question,
    facts: Facts,
    object: Object,
    progress: &mut dyn FnMut(&str),
) -> Shrunk {
    let mut shrinker = Shrinker {
        question,
        shrunk: Shrunk {
            facts,
            object,
            calls: 0,
        },
        needed: 0,
        progress,
    };
    shrinker.halve(Sort::Object);
    shrinker.halve(Sort::Fact);
    // What could not be left out at first may go after others went.
    while !shrinker.is_done() {
        shrinker.pass(Sort::Object, 1);
        shrinker.pass(Sort::Fact, 1);
    }
    shrinker.shrunk
}

#[derive(Clone, Copy, PartialEq, Eq)]
enum Sort {
    Object,
    Fact,
}

struct Shrinker<'a> {
    question: &'a Question,
    shrunk: Shrunk,
    /// How many single ones were tried in vain since something was left out. They
    /// are tried in a circle, so that these are all different.
    needed: usize,
    progress: &'a mut dyn FnMut(&str),
}

impl Shrinker<'_> {
    fn count(&self, sort: Sort) -> usize {
        match sort {
            Sort::Object => self.shrunk.facts.objects.into(),
            Sort::Fact => self.shrunk.facts.facts.len(),
        }
    }

    fn is_done(&self) -> bool {
        self.needed >= self.count(Sort::Object) + self.count(Sort::Fact)
    }

    /// Tries runs of half of them, of a quarter, and so forth.
    fn halve(&mut self, sort: Sort) {
        let mut run = self.count(sort) / 2;
        while run > 0 {
            while self.pass(sort, run) && run >= LONG_RUN {}
            run /= 2;
        }
    }

    /// Tries to leave out each run of so many, and tells whether any could be.
    fn pass(&mut self, sort: Sort, run: usize) -> bool {
        let mut helped = false;
        let mut at = 0;
        while at < self.count(sort) && !self.is_done() {
            let end = self.count(sort).min(at.saturating_add(run));
            if self.leave_out(sort, at..end) {
                self.needed = 0;
                helped = true;
            } else {
                self.needed += usize::from(run == 1);
                at = end;
            }
        }
        helped
    }

    /// Leaves them out if what remains is a counterexample.
    fn leave_out(&mut self, sort: Sort, range: Range<usize>) -> bool {
        let facts = match sort {
            Sort::Object => without_objects(&self.shrunk.facts, range),
            Sort::Fact => without_facts(&self.shrunk.facts, range),
        };
        self.count_call();
        match self.question.shown_by(&facts.words()) {
            Some(object) => {
                self.shrunk.facts = facts;
                self.shrunk.object = object;
                true
            }
            None => false,
        }
    }

    fn count_call(&mut self) {
        self.shrunk.calls += 1;
        if self.shrunk.calls % CALLS_PER_LINE == 0 {
            let Facts { objects, facts } = &self.shrunk.facts;
            let facts = facts.len();
            (self.progress)(&format!(
                "making the state smaller: {objects} objects, {facts} facts"
            ));
        }
    }
}

fn without_objects(facts: &Facts, range: Range<usize>) -> Facts {
    let left_out = range.len() as u16;
    let number = |Object(number): Object| match usize::from(number) {
        place if place < range.start => Some(Object(number)),
        place if place < range.end => None,
        _ => Some(Object(number - left_out)),
    };
    facts.numbered(facts.objects - left_out, number)
}

fn without_facts(facts: &Facts, range: Range<usize>) -> Facts {
    let mut kept = facts.clone();
    kept.facts.drain(range);
    kept
}
