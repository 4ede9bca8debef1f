//! Relief for crowded columns. Every second of the objects that hang on one line moves
//! on to the next column; a stand-in keeps a gap for its line between the boxes.

use super::layers::Columns;
use super::lines::Line;

/// A column with more boxes is crowded.
const CROWDED: usize = 14;

pub struct Relief {
    /// With stand-ins, whose numbers come after those of the objects.
    pub columns: Columns,
    /// The lines, or their pieces up to a stand-in and on from there, of which only
    /// one has the attributes.
    pub lines: Vec<Line>,
    /// For each of them the line that it is or is a piece of, in order.
    pub pieces_of: Vec<usize>,
    /// The object that each stand-in stands for.
    pub stand_ins: Vec<usize>,
}

impl Relief {
    /// For columns that are in order.
    pub fn of(count: usize, mut columns: Columns, lines: &[&Line]) -> Relief {
        let mut ends = vec![0; count];
        for line in lines {
            ends[line.from] += 1;
            ends[line.to] += 1;
        }
        let mut stand_ins: Vec<usize> = Vec::new();
        for c in 1..columns.len() {
            let may = |node: usize| ends.get(node) == Some(&1) && !stand_ins.contains(&node);
            let leaving = leaving(&columns, c, may);
            for &place in &leaving {
                stand_ins.push(columns[c][place]);
                columns[c][place] = count + stand_ins.len() - 1;
            }
            let first = stand_ins.len() - leaving.len();
            join(&mut columns, c + 1, &stand_ins[first..], &leaving, lines);
        }
        let mut relief = Relief {
            columns,
            lines: Vec::new(),
            pieces_of: Vec::new(),
            stand_ins,
        };
        for (i, line) in lines.iter().enumerate() {
            relief.add(count, i, line);
        }
        relief
    }

    fn add(&mut self, count: usize, i: usize, line: &Line) {
        let is_end = |node: &usize| [line.from, line.to].contains(node);
        let pieces = match self.stand_ins.iter().position(is_end) {
            None => vec![line.between(line.from, line.to, true)],
            Some(k) => {
                let is_second = self.stand_ins[k] == line.to;
                let first = line.between(line.from, count + k, !is_second);
                vec![first, line.between(count + k, line.to, is_second)]
            }
        };
        self.pieces_of.extend(pieces.iter().map(|_| i));
        self.lines.extend(pieces);
    }
}

/// The places of a crowded column whose objects move on: every second of those that
/// may, and no more than even it out with the next column.
fn leaving(columns: &Columns, c: usize, may: impl Fn(usize) -> bool) -> Vec<usize> {
    let column = &columns[c];
    let next = columns.get(c + 1).map_or(0, Vec::len);
    let most = match column.len() > CROWDED {
        true => column.len().saturating_sub(next) / 2,
        false => 0,
    };
    let places = (0..column.len()).filter(|&place| may(column[place]));
    places.skip(1).step_by(2).take(most).collect()
}

/// Puts objects that were at these places of the column before into a column, among
/// those that are there by the places of their neighbours.
fn join(columns: &mut Columns, c: usize, nodes: &[usize], places: &[usize], lines: &[&Line]) {
    if nodes.is_empty() {
        return;
    }
    if columns.len() == c {
        columns.push(Vec::new());
    }
    let before = &columns[c - 1];
    let level = |node: usize| {
        let near = lines
            .iter()
            .filter(|line| [line.from, line.to].contains(&node));
        let near =
            near.filter_map(|line| before.iter().position(|&other| other == line.other(node)));
        near.min().unwrap_or(0)
    };
    let mut joined: Vec<usize> = Vec::new();
    let mut coming = nodes.iter().zip(places).peekable();
    for &node in &columns[c] {
        let here = level(node);
        while let Some((&new, _)) = coming.next_if(|(_, &place)| place < here) {
            joined.push(new);
        }
        joined.push(node);
    }
    joined.extend(coming.map(|(&new, _)| new));
    columns[c] = joined;
}

#[cfg(test)]
mod tests {
    use super::super::lines::Style;
    use super::super::{layers, order};
    use super::*;

    fn line(from: usize, to: usize) -> Line {
        Line {
            from,
            to,
            style: Style::Plain,
            attributes: vec!["a".into()],
        }
    }

    #[test]
    fn pieces_are_between_neighbouring_columns() {
        // Leaves at the second and at the third object: two crowded columns.
        let leaves = (3..25)
            .map(|i| line(1, i))
            .chain((25..43).map(|i| line(i, 2)));
        let lines: Vec<Line> = [line(0, 1), line(1, 2)].into_iter().chain(leaves).collect();
        let columns = layers::parts(43, &lines).remove(0);
        let relief = Relief::of(43, columns, &lines.iter().collect::<Vec<_>>());
        let spots = order::spots(43 + relief.stand_ins.len(), &relief.columns);
        for piece in &relief.lines {
            let (from, to) = (spots[piece.from], spots[piece.to]);
            assert_eq!(from.0.abs_diff(to.0), 1, "{} to {}", piece.from, piece.to);
        }
        let named = relief
            .lines
            .iter()
            .filter(|piece| !piece.attributes.is_empty());
        assert_eq!(named.count(), lines.len());
        assert_eq!(relief.lines.len(), lines.len() + relief.stand_ins.len());
        assert!(relief.stand_ins.len() > 8);
    }
}
