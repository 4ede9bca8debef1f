//! The order of the objects in each column, so that few lines cross.

use super::layers::Columns;
use super::lines::Line;

/// Where each object stands: its column and its place in it.
pub type Spots = Vec<(usize, usize)>;

/// Sweeps by the mean place of the neighbours.
const SWEEPS: usize = 8;
/// Rounds in which each object is tried in every place of its column, and the size
/// up to which that is quick.
const ROUNDS: usize = 10;
const QUICK: usize = 150;
/// What a crossing costs, against a place's distance.
const CROSSING: usize = 40;

pub fn spots(count: usize, columns: &Columns) -> Spots {
    let mut spots = vec![(usize::MAX, 0); count];
    for (c, column) in columns.iter().enumerate() {
        for (place, &node) in column.iter().enumerate() {
            spots[node] = (c, place);
        }
    }
    spots
}

/// Puts the objects of each column in order. The lines are those of these columns.
pub fn arrange(count: usize, columns: &mut Columns, lines: &[&Line]) {
    let mut near: Vec<Vec<(usize, usize)>> = vec![Vec::new(); count];
    for line in lines {
        near[line.from].push((line.to, line.style.weight()));
        near[line.to].push((line.from, line.style.weight()));
    }
    for sweep in 0..SWEEPS {
        for i in 0..columns.len() {
            let c = if sweep % 2 == 0 {
                i
            } else {
                columns.len() - 1 - i
            };
            by_mean(count, columns, c, &near);
        }
    }
    if lines.len() <= QUICK {
        sift(count, columns, lines);
    }
}

/// Sorts a column by the mean place of each object's neighbours, in this column too.
fn by_mean(count: usize, columns: &mut Columns, c: usize, near: &[Vec<(usize, usize)>]) {
    let spots = spots(count, columns);
    let level = |node: usize| {
        let (column, place) = spots[node];
        (place as f64 + 0.5) / columns[column].len() as f64
    };
    let mean = |node: usize| {
        let weight: usize = near[node].iter().map(|(_, weight)| weight).sum();
        let sum: f64 = near[node]
            .iter()
            .map(|&(other, weight)| level(other) * weight as f64)
            .sum();
        if weight == 0 {
            level(node)
        } else {
            sum / weight as f64
        }
    };
    let mut keyed: Vec<(f64, usize)> = columns[c].iter().map(|&node| (mean(node), node)).collect();
    keyed.sort_by(|a, b| a.0.total_cmp(&b.0));
    columns[c] = keyed.into_iter().map(|(_, node)| node).collect();
}

/// Moves each object to the best place in its column until nothing gets better.
fn sift(count: usize, columns: &mut Columns, lines: &[&Line]) {
    for _ in 0..ROUNDS {
        let mut better = false;
        for c in 0..columns.len() {
            let touching = touching(count, columns, c, lines);
            for node in columns[c].clone() {
                better |= move_best(count, columns, c, node, &touching);
            }
        }
        if !better {
            break;
        }
    }
}

fn touching<'a>(count: usize, columns: &Columns, c: usize, lines: &[&'a Line]) -> Vec<&'a Line> {
    let spots = spots(count, columns);
    let is_near = |line: &&&Line| spots[line.from].0 == c || spots[line.to].0 == c;
    lines.iter().filter(is_near).copied().collect()
}

fn move_best(count: usize, columns: &mut Columns, c: usize, node: usize, lines: &[&Line]) -> bool {
    let before = columns[c].clone();
    let mut best = (cost(&spots(count, columns), columns, lines), before.clone());
    let mut better = false;
    for place in 0..before.len() {
        let mut column: Vec<usize> = before
            .iter()
            .copied()
            .filter(|&other| other != node)
            .collect();
        column.insert(place, node);
        columns[c] = column;
        let tried = cost(&spots(count, columns), columns, lines);
        if tried < best.0 {
            best = (tried, columns[c].clone());
            better = true;
        }
    }
    columns[c] = best.1;
    better
}

/// A line by its ends: the left column, and the two places.
type Ends = (usize, usize, usize, usize);

fn cost(spots: &Spots, columns: &Columns, lines: &[&Line]) -> usize {
    let mut across: Vec<Ends> = Vec::new();
    let mut within: Vec<Ends> = Vec::new();
    let mut total = 0;
    for line in lines {
        let (a, b) = (
            spots[line.from].min(spots[line.to]),
            spots[line.from].max(spots[line.to]),
        );
        let weight = line.style.weight();
        if a.0 == b.0 {
            // A line past other boxes crosses most of what they have at that side.
            total += b.1.saturating_sub(a.1 + 1) * weight * CROSSING;
            within.push((a.0, a.1, b.1, weight));
        } else {
            let (left, right) = (columns[a.0].len(), columns[b.0].len());
            total += (2 * a.1 + right).abs_diff(2 * b.1 + left) * weight;
            across.push((a.0, a.1, b.1, weight));
        }
    }
    let crossings = |ends: &[Ends], crosses: fn(&Ends, &Ends) -> bool| -> usize {
        let pairs = ends
            .iter()
            .enumerate()
            .flat_map(|(i, a)| ends[..i].iter().map(move |b| (a, b)));
        pairs
            .filter(|(a, b)| a.0 == b.0 && crosses(a, b))
            .map(|(a, b)| a.3 * b.3)
            .sum()
    };
    let swapped = |a: &Ends, b: &Ends| (a.1 < b.1 && a.2 > b.2) || (a.1 > b.1 && a.2 < b.2);
    let staggered = |a: &Ends, b: &Ends| {
        (a.1 < b.1 && b.1 < a.2 && a.2 < b.2) || (b.1 < a.1 && a.1 < b.2 && b.2 < a.2)
    };
    total + CROSSING * (crossings(&across, swapped) + crossings(&within, staggered))
}
