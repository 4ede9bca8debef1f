//! Where lines meet the sides of boxes: in the order in which they leave, so that
//! they do not cross there.

use super::lines::Style;
use super::ways::{Way, Ways};

/// Room between two lines at a side, where there is enough; between lines with the
/// same ends, which have their labels side by side; and between the ends of a loop.
const WISHED: f64 = 14.0;
const PARALLEL: f64 = 19.0;
const LOOP: f64 = 24.0;
/// The part of a side's ends that lines leave free.
const CORNER: f64 = 12.0;

/// The two ends of a line.
#[derive(Clone, Copy)]
enum End {
    From,
    To,
}

/// A line's end at a side, with what it is sorted by.
struct Port {
    node: usize,
    other: usize,
    at_right: bool,
    key: (usize, usize, usize, usize),
    line: usize,
    end: End,
    /// The room that the line takes.
    breadth: f64,
}

pub struct Ports {
    ports: Vec<Port>,
}

impl Ports {
    pub fn of(ways: &Ways) -> Ports {
        let mut ports = Vec::new();
        for (i, &(line, way)) in ways.lines.iter().enumerate() {
            for (end, node, other) in [
                (End::From, line.from, line.to),
                (End::To, line.to, line.from),
            ] {
                let (here, there) = (ways.spots[node], ways.spots[other]);
                let (at_right, key) = match way {
                    Way::Upright => continue,
                    Way::Across => (here.0 < there.0, (1, there.1, i, 0)),
                    Way::Bow(_) if node == other => (true, (0, 0, i, end as usize)),
                    Way::Bow(track) if there.1 < here.1 => (true, (0, track, i, 0)),
                    Way::Bow(track) => (true, (2, usize::MAX - track, i, 0)),
                };
                let breadth = breadth(line.style);
                ports.push(Port {
                    node,
                    other,
                    at_right,
                    key,
                    line: i,
                    end,
                    breadth,
                });
            }
        }
        ports.sort_by_key(|port| (port.node, port.at_right, port.key));
        Ports { ports }
    }

    fn sides(&self) -> impl Iterator<Item = &[Port]> {
        self.ports
            .chunk_by(|a, b| (a.node, a.at_right) == (b.node, b.at_right))
    }

    /// The height that a box needs for its lines.
    pub fn height(&self, node: usize) -> f64 {
        let sides = self.sides().filter(|side| side[0].node == node);
        let needs = sides.map(|side| gaps(side).iter().map(|gap| gap.0).sum::<f64>());
        needs.fold(0.0, f64::max) + 2.0 * CORNER
    }

    /// How far below the middle of the boxes, by their heights, each line begins and
    /// ends.
    pub fn offsets(&self, count: usize, heights: &[f64]) -> Vec<(f64, f64)> {
        let mut offsets = vec![(0.0, 0.0); count];
        for side in self.sides() {
            let room = heights[side[0].node] - 2.0 * CORNER;
            for (port, offset) in side.iter().zip(spread(&gaps(side), room)) {
                match port.end {
                    End::From => offsets[port.line].0 = offset,
                    End::To => offsets[port.line].1 = offset,
                }
            }
        }
        offsets
    }
}

/// The room between the ports of a side: the least, and what is wished.
fn gaps(side: &[Port]) -> Vec<(f64, f64)> {
    let gap = |pair: &[Port]| {
        let least = (pair[0].breadth + pair[1].breadth) / 2.0;
        match pair[0].line == pair[1].line {
            true => (LOOP, LOOP),
            false if pair[0].other == pair[1].other => (PARALLEL, PARALLEL),
            false => (least, least.max(WISHED)),
        }
    };
    side.windows(2).map(gap).collect()
}

/// The places of ports around the middle of a side that has this much room.
fn spread(gaps: &[(f64, f64)], room: f64) -> Vec<f64> {
    let least: f64 = gaps.iter().map(|gap| gap.0).sum();
    let more: f64 = gaps.iter().map(|gap| gap.1 - gap.0).sum();
    let share = if more > 0.0 {
        ((room - least) / more).clamp(0.0, 1.0)
    } else {
        0.0
    };
    let mut place = -(least + more * share) / 2.0;
    let mut places = vec![place];
    for gap in gaps {
        place += gap.0 + (gap.1 - gap.0) * share;
        places.push(place);
    }
    places
}

fn breadth(style: Style) -> f64 {
    match style {
        Style::Plain => 8.0,
        Style::Query | Style::View | Style::Missing => 11.0,
        Style::Both => 15.0,
    }
}
