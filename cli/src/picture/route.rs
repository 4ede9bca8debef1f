//! The path of a line, from its first end to its tip.

use super::geometry::{point, Point, Short};

#[derive(Clone, Copy, Debug)]
pub enum Piece {
    /// Straight to a point.
    To(Point),
    /// Around a corner to a point.
    Turn(Point, Point),
    /// With two control points to a third.
    Swing(Point, Point, Point),
}

#[derive(Clone, Debug)]
pub struct Path {
    pub start: Point,
    pub pieces: Vec<Piece>,
}

/// How far a bow's corners are rounded.
const ROUND: f64 = 9.0;

impl Piece {
    fn end(&self) -> Point {
        match *self {
            Piece::To(end) | Piece::Turn(_, end) | Piece::Swing(_, _, end) => end,
        }
    }

    /// The same way back to where it began.
    fn back(&self, begin: Point) -> Piece {
        match *self {
            Piece::To(_) => Piece::To(begin),
            Piece::Turn(corner, _) => Piece::Turn(corner, begin),
            Piece::Swing(first, second, _) => Piece::Swing(second, first, begin),
        }
    }

    fn at(&self, begin: Point, t: f64) -> Point {
        match *self {
            Piece::To(end) => begin.towards(end, t),
            Piece::Turn(corner, end) => begin.towards(corner, t).towards(corner.towards(end, t), t),
            Piece::Swing(first, second, end) => {
                let (a, b, c) = (
                    begin.towards(first, t),
                    first.towards(second, t),
                    second.towards(end, t),
                );
                a.towards(b, t).towards(b.towards(c, t), t)
            }
        }
    }

    fn moved(&self, dx: f64, dy: f64) -> Piece {
        match *self {
            Piece::To(end) => Piece::To(end.moved(dx, dy)),
            Piece::Turn(corner, end) => Piece::Turn(corner.moved(dx, dy), end.moved(dx, dy)),
            Piece::Swing(a, b, end) => {
                Piece::Swing(a.moved(dx, dy), b.moved(dx, dy), end.moved(dx, dy))
            }
        }
    }
}

impl Path {
    pub fn straight(start: Point, end: Point) -> Path {
        Path {
            start,
            pieces: vec![Piece::To(end)],
        }
    }

    /// From left to right: straight until `bend`, then in a swing.
    pub fn across(start: Point, bend: f64, end: Point) -> Path {
        if (start.y - end.y).abs() < 0.5 {
            return Path::straight(start, point(end.x, start.y));
        }
        let half = (bend + end.x) / 2.0;
        let mut pieces = vec![Piece::Swing(point(half, start.y), point(half, end.y), end)];
        // A piece without length would have no direction.
        if bend > start.x + 0.5 {
            pieces.insert(0, Piece::To(point(bend, start.y)));
        }
        Path { start, pieces }
    }

    /// From one point out to a track at the right and back to another.
    pub fn bow(start: Point, track: f64, end: Point) -> Path {
        let way = end.y - start.y;
        let round = ROUND.min(way.abs() / 2.0) * way.signum();
        let (first, second) = (point(track, start.y), point(track, end.y));
        let pieces = vec![
            Piece::To(first.moved(-round.abs(), 0.0)),
            Piece::Turn(first, first.moved(0.0, round)),
            Piece::To(second.moved(0.0, -round)),
            Piece::Turn(second, second.moved(-round.abs(), 0.0)),
            Piece::To(end),
        ];
        Path { start, pieces }
    }

    pub fn tip(&self) -> Point {
        self.pieces.last().map_or(self.start, Piece::end)
    }

    /// The direction at the tip, of length 1.
    pub fn heading(&self) -> Point {
        let tip = self.tip();
        let before = match self.pieces[..] {
            [.., Piece::Turn(control, _)] | [.., Piece::Swing(_, control, _)] => control,
            [.., before, Piece::To(_)] => before.end(),
            _ => self.start,
        };
        let far = before.distance(tip).max(0.001);
        point((tip.x - before.x) / far, (tip.y - before.y) / far)
    }

    pub fn reversed(&self) -> Path {
        let begins = std::iter::once(self.start).chain(self.pieces.iter().map(Piece::end));
        let back = self
            .pieces
            .iter()
            .zip(begins)
            .map(|(piece, begin)| piece.back(begin));
        let mut pieces: Vec<Piece> = back.collect();
        pieces.reverse();
        Path {
            start: self.tip(),
            pieces,
        }
    }

    /// Without its last bit, of this length, where the head of an arrow is.
    pub fn shortened(&self, by: f64) -> Path {
        let heading = self.heading();
        let mut path = self.clone();
        if let Some(Piece::To(end) | Piece::Turn(_, end) | Piece::Swing(_, _, end)) =
            path.pieces.last_mut()
        {
            *end = end.moved(-by * heading.x, -by * heading.y);
        }
        path
    }

    pub fn moved(&self, dx: f64, dy: f64) -> Path {
        Path {
            start: self.start.moved(dx, dy),
            pieces: self
                .pieces
                .iter()
                .map(|piece| piece.moved(dx, dy))
                .collect(),
        }
    }

    /// Points along the path, about this far apart.
    pub fn points(&self, step: f64) -> Vec<Point> {
        let mut points = vec![self.start];
        let mut begin = self.start;
        for piece in &self.pieces {
            let middle = piece.at(begin, 0.5);
            let length = begin.distance(middle) + middle.distance(piece.end());
            let count = (length / step).ceil().clamp(1.0, 500.0) as usize;
            points.extend((1..=count).map(|k| piece.at(begin, k as f64 / count as f64)));
            begin = piece.end();
        }
        points
    }

    /// As the attribute `d` of an SVG path.
    pub fn data(&self) -> String {
        let show = |p: &Point| format!("{} {}", Short(p.x), Short(p.y));
        let mut data = format!("M{}", show(&self.start));
        for piece in &self.pieces {
            data += &match piece {
                Piece::To(end) => format!("L{}", show(end)),
                Piece::Turn(corner, end) => format!("Q{} {}", show(corner), show(end)),
                Piece::Swing(a, b, end) => format!("C{} {} {}", show(a), show(b), show(end)),
            };
        }
        data
    }
}
