//! How high each object stands: as near as can be to where its lines are straight,
//! in the order of its column and without overlap.

/// A pull between two objects: the second would stand `shift` below the first.
pub struct Pull {
    pub first: usize,
    pub second: usize,
    pub shift: f64,
    pub weight: f64,
}

const ROUNDS: usize = 40;

/// The heights of the middles. `apart` says how far the middles of two objects, one
/// above the other in a column, must be apart.
pub fn settle(
    columns: &[Vec<usize>],
    count: usize,
    pulls: &[Pull],
    apart: impl Fn(usize, usize) -> f64,
) -> Vec<f64> {
    let mut middles = vec![0.0; count];
    let mut pulled: Vec<Vec<(usize, f64, f64)>> = vec![Vec::new(); count];
    for pull in pulls {
        pulled[pull.first].push((pull.second, -pull.shift, pull.weight));
        pulled[pull.second].push((pull.first, pull.shift, pull.weight));
    }
    let below: Vec<Vec<f64>> = columns
        .iter()
        .map(|column| running(column, &apart))
        .collect();
    for (column, below) in columns.iter().zip(&below) {
        let half = below.last().map_or(0.0, |last| last / 2.0);
        for (&node, depth) in column.iter().zip(below) {
            middles[node] = depth - half;
        }
    }
    for round in 0..ROUNDS {
        for i in 0..columns.len() {
            let c = if round % 2 == 0 {
                i
            } else {
                columns.len() - 1 - i
            };
            let wish = |node: usize| wish(&pulled[node], &middles).unwrap_or((middles[node], 1.0));
            let wishes: Vec<(f64, f64)> = columns[c].iter().map(|&node| wish(node)).collect();
            for (&node, middle) in columns[c].iter().zip(nearest(&wishes, &below[c])) {
                middles[node] = middle;
            }
        }
    }
    middles
}

/// The least depths of a column's middles below its first.
fn running(column: &[usize], apart: impl Fn(usize, usize) -> f64) -> Vec<f64> {
    let mut depth = 0.0;
    let mut depths = vec![0.0];
    for pair in column.windows(2) {
        depth += apart(pair[0], pair[1]);
        depths.push(depth);
    }
    depths
}

/// Where the pulls together want it, and how strongly.
fn wish(pulled: &[(usize, f64, f64)], middles: &[f64]) -> Option<(f64, f64)> {
    let weight: f64 = pulled.iter().map(|(_, _, weight)| weight).sum();
    let sum: f64 = pulled
        .iter()
        .map(|&(other, shift, weight)| (middles[other] + shift) * weight)
        .sum();
    (weight > 0.0).then(|| (sum / weight, weight))
}

/// The places that are nearest to the wishes in the sum of weighted squares while
/// each is as far below the one before as `below` says: neighbours whose wishes
/// conflict are pooled to one group that stands where its members together want it.
fn nearest(wishes: &[(f64, f64)], below: &[f64]) -> Vec<f64> {
    let mut groups: Vec<(f64, f64, usize)> = Vec::new();
    for ((wish, weight), depth) in wishes.iter().zip(below) {
        let mut group = (wish - depth, *weight, 1);
        while let Some(&(before, heavy, size)) = groups.last() {
            if before <= group.0 {
                break;
            }
            groups.pop();
            let sum = heavy + group.1;
            group = (
                (before * heavy + group.0 * group.1) / sum,
                sum,
                size + group.2,
            );
        }
        groups.push(group);
    }
    let starts = groups
        .iter()
        .flat_map(|&(start, _, size)| std::iter::repeat_n(start, size));
    starts
        .zip(below)
        .map(|(start, depth)| start + depth)
        .collect()
}
