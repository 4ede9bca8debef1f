//! Random catalogues.

use crate::schemas::Schemas;
use crate::verify::{verify, Difference};
use bikuvoa::layout::MAX_VIEWS;
use std::fmt;
use tools::answer::Answerer;
use tools::call::Entry;
use tools::draw::catalogue::Catalogue;
use tools::prng::Prng;

/// What the catalogues were like. Of pairs, those of a view with itself are left
/// out.
#[derive(Default)]
pub struct Tally {
    pub schemas: Schemas,
    pub catalogues: usize,
    /// How many have as many views as there may be.
    pub full: usize,
    pub pairs: usize,
    pub held: usize,
    pub groups: usize,
    /// How many groups have more than one view.
    pub shared: usize,
    /// The most views of a group.
    pub most: usize,
    /// The most groups of which each is narrower than the next.
    pub deepest: usize,
    /// How often there was more than one group to choose the next from.
    pub choices: usize,
    /// How many catalogues do not have their groups in order of the lowest view.
    pub moved: usize,
}

impl fmt::Display for Tally {
    fn fmt(&self, f: &mut fmt::Formatter) -> fmt::Result {
        write!(
            f,
            "catalogues: {}, of {MAX_VIEWS} views {}; pairs {}, held {}; groups {}, of more than \
             one view {}, of up to {}; chosen from several {}; chains of up to {} groups; not in \
             order of the lowest view {}; {}",
            self.catalogues,
            self.full,
            self.pairs,
            self.held,
            self.groups,
            self.shared,
            self.most,
            self.choices,
            self.deepest,
            self.moved,
            self.schemas
        )
    }
}

impl Tally {
    fn count(&mut self, views: usize, rows: &[u16], order: &[u16]) {
        let held: u32 = rows.iter().map(|row| row.count_ones()).sum();
        self.catalogues += 1;
        self.full += usize::from(views == MAX_VIEWS);
        self.pairs += views * (views - 1);
        self.held += held as usize - views;
        self.groups += order.len();
        // Whether group k is narrower than group l, by their lowest views.
        let lowest: Vec<usize> = order.iter().map(|g| g.trailing_zeros() as usize).collect();
        let is_narrower = |k: usize, l: usize| k != l && rows[lowest[k]] >> lowest[l] & 1 == 1;
        let mut depths: Vec<usize> = Vec::new();
        for (place, group) in order.iter().enumerate() {
            let size = group.count_ones() as usize;
            self.shared += usize::from(size > 1);
            self.most = self.most.max(size);
            let to_come = || place..order.len();
            let ready = to_come().filter(|&l| !to_come().any(|k| is_narrower(k, l)));
            self.choices += usize::from(ready.count() > 1);
            let narrower = (0..place).filter(|&k| is_narrower(k, place));
            let depth = 1 + narrower.map(|k| depths[k]).max().unwrap_or(0);
            self.deepest = self.deepest.max(depth);
            depths.push(depth);
        }
        self.moved += usize::from(!lowest.is_sorted());
    }
}

/// Verifies `count` catalogues, most of them with words to spare.
pub fn run(tested: &dyn Answerer, prng: &mut Prng, count: usize) -> Result<Tally, Box<Difference>> {
    let mut tally = Tally::default();
    while tally.catalogues < count {
        let catalogue = Catalogue::random(prng);
        tally.schemas.count(catalogue.signature);
        let [rows, order] = [(); 2].map(|()| MAX_VIEWS + prng.below(4));
        for &entry in Entry::CATALOGUES {
            let outcome = verify(tested, &catalogue.call(entry, rows, order))?;
            if entry == Entry::Catalogue {
                let views = catalogue.views.len();
                let groups = outcome.outs[0] as usize;
                tally.count(views, &outcome.words[..views], &outcome.order[..groups]);
            }
        }
    }
    Ok(tally)
}
