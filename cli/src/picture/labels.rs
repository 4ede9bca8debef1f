//! Places for the labels of lines: on the line, away from other labels and from
//! other lines as far as there is room.

use super::geometry::{point, Point, Rect};
use super::route::Path;

/// A line whose label is to be placed between two borders, which no box crosses.
pub struct Wanted<'a> {
    pub path: &'a Path,
    pub width: f64,
    pub height: f64,
    pub left: f64,
    pub right: f64,
}

/// How far the points are apart by which a line is felt, and the places at which a
/// label is tried.
const FINE: f64 = 5.0;
const TRIES: usize = 28;
const ROUNDS: usize = 4;

/// Lines as labels feel them: by points, and the rectangles in which these are.
struct Felt {
    points: Vec<Vec<Point>>,
    bounds: Vec<Rect>,
}

/// The places of the labels.
pub fn place(wanted: &[Wanted]) -> Vec<Rect> {
    let points: Vec<Vec<Point>> = wanted.iter().map(|want| want.path.points(FINE)).collect();
    let bounds = points.iter().map(|points| Rect::bounding(points)).collect();
    let felt = Felt { points, bounds };
    let first = wanted.iter().zip(&felt.points);
    let mut labels: Vec<Rect> = first.map(|(want, line)| at(want, line, 0.5)).collect();
    for _ in 0..ROUNDS {
        for (i, want) in wanted.iter().enumerate() {
            let tries = (0..=TRIES).map(|k| 0.1 + 0.8 * k as f64 / TRIES as f64);
            let priced = tries.map(|t| {
                let label = at(want, &felt.points[i], t);
                let price = felt.price(i, &label) + met(i, &label, &labels);
                (price + (t - 0.5).abs() * 12.0, label)
            });
            if let Some((_, label)) = priced.min_by(|a, b| a.0.total_cmp(&b.0)) {
                labels[i] = label;
            }
        }
    }
    labels
}

/// The label around the point at `t` of its line, moved in between the borders.
fn at(want: &Wanted, line: &[Point], t: f64) -> Rect {
    let k = (t * line.len().saturating_sub(1) as f64).round() as usize;
    let here = line.get(k).copied().unwrap_or_default();
    let (first, last) = (want.left + want.width / 2.0, want.right - want.width / 2.0);
    let x = here.x.min(last).max(first);
    Rect::around(point(x, here.y), want.width, want.height)
}

/// How much of other labels a label covers.
fn met(own: usize, label: &Rect, labels: &[Rect]) -> f64 {
    let room = label.grown(3.0);
    let others = labels.iter().enumerate().filter(|(i, _)| *i != own);
    others.map(|(_, other)| room.overlap(other)).sum::<f64>() * 3.0
}

impl Felt {
    /// How much a label hides of lines and their tips; of its own line it must hide
    /// something.
    fn price(&self, own: usize, label: &Rect) -> f64 {
        let room = label.grown(3.0);
        let mut price = 0.0;
        for (i, points) in self.points.iter().enumerate() {
            if let Some(tip) = points.last() {
                price += room.overlap(&Rect::around(*tip, 26.0, 12.0));
            }
            if self.bounds[i].grown(1.0).overlap(label) > 0.0 {
                let hidden = points.iter().filter(|p| label.has(**p)).count();
                price += hidden as f64 * if i == own { 0.8 } else { 4.0 };
            }
        }
        price
    }
}
