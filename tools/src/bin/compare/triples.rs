//! The verdicts on random triples.

use crate::schemas::{meets, shares, Schemas};
use crate::verify::{verify, Difference};
use bikuvoa::layout::token;
use std::fmt;
use tools::answer::Answerer;
use tools::call::Entry;
use tools::draw::triple::{Marks, Triple};
use tools::draw::wide;
use tools::prng::Prng;

/// How many near misses in a row are taken from a held triple.
const NEAR_MISSES: usize = 4;

/// How a triple was drawn.
#[derive(Clone, Copy)]
enum Source {
    Random,
    Followed,
    NearMiss,
    Wide,
}

#[derive(Clone, Copy, Default)]
struct Mix {
    held: usize,
    open: usize,
}

/// How many triples were held and how many open, by their source.
#[derive(Default)]
pub struct Tally {
    /// Those of the triples but for near misses, whose schema another triple has, or
    /// nearly.
    pub schemas: Schemas,
    mixes: [Mix; 4],
    /// The most objects that a written state had.
    objects: u64,
    /// How many written states have two constants that name one object.
    pub sharing: usize,
    /// How many triples have marks in their query.
    pub marked: usize,
    /// How many of them are held.
    pub marked_held: usize,
    /// How many written states have two marks that are one object.
    pub meeting: usize,
}

impl Tally {
    pub fn triples(&self) -> usize {
        self.held() + self.open()
    }

    pub fn held(&self) -> usize {
        self.mixes.iter().map(|mix| mix.held).sum()
    }

    pub fn open(&self) -> usize {
        self.mixes.iter().map(|mix| mix.open).sum()
    }
}

impl fmt::Display for Mix {
    fn fmt(&self, f: &mut fmt::Formatter) -> fmt::Result {
        write!(f, "held {}, open {}", self.held, self.open)
    }
}

impl fmt::Display for Tally {
    fn fmt(&self, f: &mut fmt::Formatter) -> fmt::Result {
        let [random, followed, near_misses, wide] = self.mixes;
        write!(
            f,
            "triples: random ({random}), view read off a model ({followed}), \
             near misses of held ({near_misses}), wide ({wide}); states of up to {} objects, \
             with two constants of one object {}; with marks {}, of these held {}, states with two \
             marks of one object {}; {}",
            self.objects, self.sharing, self.marked, self.marked_held, self.meeting, self.schemas
        )
    }
}

/// Verifies at least `count` triples.
pub fn run(tested: &dyn Answerer, prng: &mut Prng, count: usize) -> Result<Tally, Box<Difference>> {
    let mut tally = Tally::default();
    while tally.triples() < count {
        let marks = Marks::draw(prng);
        if prng.chance(2) {
            let wide = wide::triple(prng, marks);
            tally.schemas.count(wide.signature);
            decide(tested, &wide, Source::Wide, &mut tally)?;
        }
        let random = Triple::random(prng, marks);
        tally.schemas.count(random.signature);
        decide(tested, &random, Source::Random, &mut tally)?;
        let marks = Marks::draw(prng);
        let mut triple = Triple::followed(prng, marks);
        tally.schemas.count(triple.signature);
        let mut held = decide(tested, &triple, Source::Followed, &mut tally)?;
        // Away from a held triple in small changes, until it is open.
        for _ in 0..NEAR_MISSES {
            if held {
                triple = triple.near_miss(prng);
                held = decide(tested, &triple, Source::NearMiss, &mut tally)?;
            }
        }
    }
    Ok(tally)
}

/// Whether the triple is held.
fn decide(
    tested: &dyn Answerer,
    triple: &Triple,
    source: Source,
    tally: &mut Tally,
) -> Result<bool, Box<Difference>> {
    // All are held to the one verdict of the reference, so they agree.
    for &entry in Entry::VERDICTS {
        if entry != Entry::Decide {
            verify(tested, &triple.verdict_call(entry))?;
        }
    }
    let outcome = verify(tested, &triple.verdict_call(Entry::Decide))?;
    let [objects, _] = outcome.outs;
    let held = objects == 0;
    let mix = &mut tally.mixes[source as usize];
    mix.held += usize::from(held);
    mix.open += usize::from(!held);
    tally.objects = tally.objects.max(objects);
    tally.sharing += usize::from(!held && shares(&outcome.words));
    let marked = triple.query.iter().any(|&(sort, _)| sort == token::MARK);
    tally.marked += usize::from(marked);
    tally.marked_held += usize::from(marked && held);
    tally.meeting += usize::from(!held && meets(&outcome.words));
    Ok(held)
}
