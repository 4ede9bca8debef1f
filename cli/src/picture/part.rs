//! The places of boxes, lines and labels of a part of the drawing that hangs
//! together: columns as wide as their widest box, gutters as wide as what is in them.

use super::card::{self, Card};
use super::geometry::{point, Rect};
use super::heights::{self, Pull};
use super::labels::{self, Wanted};
use super::layers::Columns;
use super::layout::Route;
use super::lines::Line;
use super::measure::{self, LINE, SMALL};
use super::ports::Ports;
use super::relief::Relief;
use super::route::Path;
use super::ways::{Way, Ways};

/// Room between two boxes of a column.
const BETWEEN: f64 = 20.0;
/// Room for a line between two boxes, and at each side of it.
const GAP: f64 = 8.0;
/// The first track of bows, and the room between two.
const FIRST: f64 = 24.0;
const TRACK: f64 = 15.0;
/// Room between a label and a column, and for the bend of a line beside its label.
const CLEAR: f64 = 15.0;
const BEND: f64 = 36.0;
/// A gutter with lines to the next column is at least this wide; it is wider if lines
/// are steep, but not wider than this for them.
const LEAST: f64 = 80.0;
const STEEP: f64 = 260.0;

/// The size of a label.
fn size(rows: &[String]) -> (f64, f64) {
    let widths = rows.iter().map(|row| measure::width(row, SMALL, false));
    let margin = if rows.is_empty() { 0.0 } else { 6.0 };
    (
        widths.fold(0.0, f64::max) + margin,
        rows.len() as f64 * LINE,
    )
}

/// A part in the making: the heights and labels by which gutters are measured.
pub struct Plan<'a> {
    columns: &'a Columns,
    ways: Ways<'a>,
    rows: Vec<Vec<String>>,
    /// How far below the middles of their boxes lines begin and end.
    offsets: Vec<(f64, f64)>,
    /// The left and right side of each column, and the right end of its gutter.
    pub sides: Vec<(f64, f64, f64)>,
    pub boxes: Vec<Rect>,
    /// Nodes from this number on are stand-ins.
    objects: usize,
}

impl<'a> Plan<'a> {
    pub fn of(relief: &'a Relief, cards: &[Card]) -> Plan<'a> {
        let (columns, lines) = (&relief.columns, &relief.lines);
        let count = cards.len() + relief.stand_ins.len();
        let ways = Ways::of(count, columns, lines);
        let ports = Ports::of(&ways);
        let high = |(node, card): (usize, &Card)| card.height.max(ports.height(node));
        let mut highs: Vec<f64> = cards.iter().enumerate().map(high).collect();
        highs.resize(count, GAP);
        let mut plan = Plan {
            columns,
            offsets: ports.offsets(lines.len(), &highs),
            rows: lines
                .iter()
                .map(|line| card::list(&line.attributes))
                .collect(),
            ways,
            sides: Vec::new(),
            boxes: vec![Rect::default(); count],
            objects: cards.len(),
        };
        let middles = plan.middles(&highs);
        plan.place(cards, &highs, &middles);
        plan
    }

    fn lines(&self) -> impl Iterator<Item = (usize, &'a Line, Way)> + '_ {
        let lines = self.ways.lines.iter().enumerate();
        lines.map(|(i, &(line, way))| (i, line, way))
    }

    fn middles(&self, highs: &[f64]) -> Vec<f64> {
        let pull = |(i, line, way): (usize, &Line, Way)| {
            (way == Way::Across).then(|| Pull {
                first: line.from,
                second: line.to,
                shift: self.offsets[i].0 - self.offsets[i].1,
                weight: line.style.weight() as f64,
            })
        };
        let pulls: Vec<Pull> = self.lines().filter_map(pull).collect();
        let apart = |upper: usize, lower: usize| {
            let upright = self.lines().find(|&(_, line, way)| {
                way == Way::Upright
                    && [line.from, line.to].contains(&upper)
                    && line.other(upper) == lower
            });
            let between = if upper.max(lower) < self.objects {
                BETWEEN
            } else {
                GAP
            };
            let label = upright.map_or(0.0, |(i, ..)| size(&self.rows[i]).1 + 24.0);
            (highs[upper] + highs[lower]) / 2.0 + between + label
        };
        let middles = heights::settle(self.columns, highs.len(), &pulls, apart);
        let tops = self
            .columns
            .iter()
            .flatten()
            .map(|&node| middles[node] - highs[node] / 2.0);
        let top = tops.fold(f64::INFINITY, f64::min);
        middles.iter().map(|middle| middle - top).collect()
    }

    /// Columns as wide as their widest box, and gutters as wide as their labels need.
    fn place(&mut self, cards: &[Card], highs: &[f64], middles: &[f64]) {
        let mut x = 0.0;
        for (c, column) in self.columns.iter().enumerate() {
            let upright = self
                .lines()
                .filter(|&(_, line, way)| way == Way::Upright && self.ways.gutter(line) == c);
            let labels = upright.map(|(i, ..)| size(&self.rows[i]).0);
            let width = column
                .iter()
                .filter_map(|&node| cards.get(node))
                .map(|card| card.width)
                .chain(labels)
                .fold(0.0, f64::max);
            let gutter = self.gutter(c, middles);
            for &node in column {
                self.boxes[node] =
                    Rect::around(point(x + width / 2.0, middles[node]), width, highs[node]);
            }
            self.sides.push((x, x + width, x + width + gutter));
            x += width + gutter;
        }
    }

    /// The width of the gutter at the right of a column.
    fn gutter(&self, c: usize, middles: &[f64]) -> f64 {
        let tracks = self.tracks(c);
        let mut width = tracks;
        for (i, line, way) in self
            .lines()
            .filter(|(_, line, _)| self.ways.gutter(line) == c)
        {
            let label = size(&self.rows[i]).0;
            width = width.max(match way {
                Way::Upright => 0.0,
                Way::Bow(track) if line.from == line.to => bow(track) + label + CLEAR,
                Way::Bow(track) => (bow(track) + label / 2.0).max(label) + CLEAR,
                Way::Across => {
                    let (first, second) = self.offsets[i];
                    let rise = (middles[line.from] + first - middles[line.to] - second).abs();
                    let bend = if rise > 1.0 { BEND } else { CLEAR };
                    let least = (label + 2.0 * CLEAR + bend).max(LEAST);
                    tracks + (rise * 0.35).min(STEEP).max(least)
                }
            });
        }
        width
    }

    /// The room that a column's bows take.
    fn tracks(&self, c: usize) -> f64 {
        match self.ways.tracks(c) {
            0 => 0.0,
            tracks => bow(tracks) + 6.0,
        }
    }

    pub fn routes(&self) -> Vec<Route> {
        let paths: Vec<Path> = self
            .lines()
            .map(|(i, line, way)| self.path(i, line, way))
            .collect();
        let wanted = self.lines().zip(&paths).map(|((i, line, way), path)| {
            let (width, height) = size(&self.rows[i]);
            let (left, right) = self.borders(line, way);
            Wanted {
                path,
                width,
                height,
                left,
                right,
            }
        });
        let labels = labels::place(&wanted.collect::<Vec<Wanted>>());
        let routes = labels.into_iter().zip(&self.rows).zip(&paths);
        routes
            .map(|((label, rows), path)| Route {
                path: path.clone(),
                label,
                rows: rows.clone(),
            })
            .collect()
    }

    /// Where a line's label may be: at the right of a loop, else anywhere in the gutter
    /// or, between two boxes, in the column.
    fn borders(&self, line: &Line, way: Way) -> (f64, f64) {
        let (left, right, end) = self.sides[self.ways.gutter(line)];
        match way {
            Way::Upright => (left, right),
            Way::Bow(track) if line.from == line.to => (right + bow(track) + 5.0, end - 5.0),
            _ => (right + 5.0, end - 5.0),
        }
    }

    fn path(&self, i: usize, line: &Line, way: Way) -> Path {
        let (from, to) = (self.boxes[line.from], self.boxes[line.to]);
        let (start, end) = (
            from.centre().y + self.offsets[i].0,
            to.centre().y + self.offsets[i].1,
        );
        let c = self.ways.gutter(line);
        let bend = self.sides[c].1 + self.tracks(c);
        match way {
            Way::Across if from.x < to.x => {
                Path::across(point(from.right(), start), bend, point(to.x, end))
            }
            Way::Across => {
                Path::across(point(to.right(), end), bend, point(from.x, start)).reversed()
            }
            Way::Bow(track) => {
                let right = self.sides[c].1;
                Path::bow(point(right, start), right + bow(track), point(right, end))
            }
            Way::Upright if from.y < to.y => Path::straight(
                point(from.centre().x, from.bottom()),
                point(from.centre().x, to.y),
            ),
            Way::Upright => Path::straight(
                point(from.centre().x, from.y),
                point(from.centre().x, to.bottom()),
            ),
        }
    }
}

/// How far out a track is.
fn bow(track: usize) -> f64 {
    FIRST + TRACK * track.saturating_sub(1) as f64
}
