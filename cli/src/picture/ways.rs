//! How each line runs: across a gutter, upright between two boxes of a column, or in
//! a bow at the right of its column.

use super::layers::Columns;
use super::lines::Line;
use super::order::{self, Spots};

#[derive(Clone, Copy, Debug, PartialEq, Eq)]
pub enum Way {
    /// From a column to the next, or back.
    Across,
    /// Between a box and the one below it.
    Upright,
    /// Out at the right and back, on a track with this number, from 1.
    Bow(usize),
}

/// The lines of a part of the drawing with their ways, by the order of the lines.
pub struct Ways<'a> {
    pub spots: Spots,
    pub lines: Vec<(&'a Line, Way)>,
}

impl<'a> Ways<'a> {
    pub fn of(count: usize, columns: &Columns, lines: &'a [Line]) -> Ways<'a> {
        let spots = order::spots(count, columns);
        let mut ways = Ways {
            spots,
            lines: lines.iter().map(|line| (line, Way::Across)).collect(),
        };
        ways.upright();
        ways.bows();
        ways
    }

    /// The column of a line's left end.
    pub fn gutter(&self, line: &Line) -> usize {
        self.spots[line.from].0.min(self.spots[line.to].0)
    }

    /// The widest track of a column's bows; 0 if it has none.
    pub fn tracks(&self, c: usize) -> usize {
        let bows = self.lines.iter().filter(|(line, _)| self.gutter(line) == c);
        bows.map(|(_, way)| if let Way::Bow(track) = way { *track } else { 0 })
            .max()
            .unwrap_or(0)
    }

    fn is_within(&self, line: &Line) -> bool {
        self.spots[line.from].0 == self.spots[line.to].0
    }

    /// Of the lines between neighbours in a column the first is upright.
    fn upright(&mut self) {
        let mut taken: Vec<(usize, usize)> = Vec::new();
        for i in 0..self.lines.len() {
            let line = self.lines[i].0;
            let (a, b) = (self.spots[line.from], self.spots[line.to]);
            let upper = a.min(b);
            if a.0 == b.0 && a.1.abs_diff(b.1) == 1 && !taken.contains(&upper) {
                taken.push(upper);
                self.lines[i].1 = Way::Upright;
            }
        }
    }

    /// The others within a column get tracks, short ones near the boxes.
    fn bows(&mut self) {
        let bow = |i: &usize| self.is_within(self.lines[*i].0) && self.lines[*i].1 == Way::Across;
        let mut bows: Vec<usize> = (0..self.lines.len()).filter(bow).collect();
        bows.sort_by_key(|&i| {
            let (_, top, bottom) = self.stretch(self.lines[i].0);
            (bottom - top, top, i)
        });
        let mut laid: Vec<((usize, usize, usize), usize)> = Vec::new();
        for i in bows {
            let new = self.stretch(self.lines[i].0);
            let touches =
                |old: (usize, usize, usize)| old.0 == new.0 && old.1 < new.2 && new.1 < old.2;
            let is_free = |track: &usize| {
                laid.iter()
                    .all(|&(old, other)| other != *track || !touches(old))
            };
            let track = (1..).find(is_free).unwrap_or(1);
            laid.push((new, track));
            self.lines[i].1 = Way::Bow(track);
        }
    }

    /// The column of a line within it and the stretch that it takes, so that a loop
    /// has some length.
    fn stretch(&self, line: &Line) -> (usize, usize, usize) {
        let (a, b) = (self.spots[line.from], self.spots[line.to]);
        match a == b {
            true => (a.0, 4 * a.1 + 3, 4 * a.1 + 5),
            false => (a.0, 4 * a.1.min(b.1) + 4, 4 * a.1.max(b.1) + 4),
        }
    }
}
