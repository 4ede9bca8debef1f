//! The places of all boxes, lines and labels.

use super::card::Card;
use super::geometry::Rect;
use super::layers::{self, Columns};
use super::lines::Line;
use super::order;
use super::part::Plan;
use super::relief::Relief;
use super::route::{Path, Piece};

/// Room between two parts of the drawing.
const APART: f64 = 34.0;

#[derive(Default)]
pub struct Layout {
    pub width: f64,
    pub height: f64,
    /// By node.
    pub boxes: Vec<Rect>,
    /// By line.
    pub routes: Vec<Route>,
}

#[derive(Clone)]
pub struct Route {
    pub path: Path,
    pub label: Rect,
    /// The label's text, in lines.
    pub rows: Vec<String>,
}

/// A part of the drawing that hangs together: its boxes with their nodes, and its
/// lines with their places among all lines.
struct Part {
    boxes: Vec<(usize, Rect)>,
    routes: Vec<(usize, Route)>,
    width: f64,
    height: f64,
}

impl Layout {
    pub fn of(cards: &[Card], lines: &[Line]) -> Layout {
        let columns = layers::parts(cards.len(), lines);
        let mut layout = Layout {
            boxes: vec![Rect::default(); cards.len()],
            ..Layout::default()
        };
        let mut routes: Vec<(usize, Route)> = Vec::new();
        let parts: Vec<Part> = columns
            .into_iter()
            .map(|columns| Part::of(columns, cards, lines))
            .collect();
        let limit = parts.first().map_or(0.0, |part| part.width).max(760.0);
        let (mut x, mut y, mut row) = (0.0, 0.0, 0.0_f64);
        for (i, part) in parts.into_iter().enumerate() {
            // The first part has a row of its own, the others follow like words.
            if x > 0.0 && (i == 1 || x + part.width > limit) {
                (x, y, row) = (0.0, y + row + APART, 0.0);
            }
            for (node, place) in part.boxes {
                layout.boxes[node] = place.moved(x, y);
            }
            routes.extend(
                part.routes
                    .into_iter()
                    .map(|(line, route)| (line, route.moved(x, y))),
            );
            layout.width = layout.width.max(x + part.width);
            layout.height = layout.height.max(y + part.height);
            (x, row) = (x + part.width + APART, row.max(part.height));
        }
        routes.sort_by_key(|(line, _)| *line);
        layout.routes = routes.into_iter().map(|(_, route)| route).collect();
        layout
    }
}

impl Route {
    fn moved(&self, dx: f64, dy: f64) -> Route {
        Route {
            path: self.path.moved(dx, dy),
            label: self.label.moved(dx, dy),
            rows: self.rows.clone(),
        }
    }

    /// Goes on with another piece; one of the two has the label.
    fn join(&mut self, piece: Route) {
        self.path.pieces.push(Piece::To(piece.path.start));
        self.path.pieces.extend(piece.path.pieces);
        if self.rows.is_empty() {
            (self.label, self.rows) = (piece.label, piece.rows);
        }
    }
}

impl Part {
    fn of(mut columns: Columns, cards: &[Card], lines: &[Line]) -> Part {
        let count = cards.len();
        let spots = order::spots(count, &columns);
        let is_mine = |(_, line): &(usize, &Line)| spots[line.from].0 < columns.len();
        let (numbers, mine): (Vec<usize>, Vec<&Line>) =
            lines.iter().enumerate().filter(is_mine).unzip();
        order::arrange(count, &mut columns, &mine);
        let relief = Relief::of(count, columns, &mine);
        let plan = Plan::of(&relief, cards);
        let mut routes: Vec<(usize, Route)> = Vec::new();
        for (&piece_of, route) in relief.pieces_of.iter().zip(plan.routes()) {
            let number = numbers[piece_of];
            match routes.last_mut().filter(|(before, _)| *before == number) {
                Some((_, before)) => before.join(route),
                None => routes.push((number, route)),
            }
        }
        let objects = relief.columns.iter().flatten().copied();
        let boxes: Vec<(usize, Rect)> = objects
            .filter(|&node| node < count)
            .map(|node| (node, plan.boxes[node]))
            .collect();
        Part {
            height: boxes
                .iter()
                .map(|(_, one)| one.bottom())
                .fold(0.0, f64::max),
            width: plan.sides.last().map_or(0.0, |side| side.2),
            boxes,
            routes,
        }
    }
}
