//! What the marks of a picture mean; only those that are in it.

use super::geometry::{point, Point, Rect};
use super::lines::{Line, Style};
use super::measure::{self, SMALL};
use super::paint::{self, Frame};
use super::route::Path;
use crate::drawing::Drawing;

const SAMPLE: f64 = 44.0;
const ROW: f64 = 24.0;

#[derive(Clone, Copy)]
enum Mark {
    Box(Frame),
    Lack,
    Line(Style),
}

pub struct Legend {
    marks: Vec<(Mark, Point)>,
    pub width: f64,
    pub height: f64,
}

impl Mark {
    fn meaning(self) -> &'static str {
        match self {
            Mark::Box(Frame::Plain) => "an object",
            Mark::Box(Frame::Object) => "the object",
            Mark::Box(Frame::Missing) => "there is none",
            Mark::Lack => "the view asks for C",
            Mark::Line(Style::Plain) => "another pair",
            Mark::Line(Style::Query) => "the query uses it",
            Mark::Line(Style::View) => "the view uses it",
            Mark::Line(Style::Both) => "both use it",
            Mark::Line(Style::Missing) => "the view misses it",
        }
    }

    fn width(self) -> f64 {
        SAMPLE + 8.0 + measure::width(self.meaning(), SMALL, false)
    }

    fn paint(self, at: Point) -> String {
        let middle = at.moved(SAMPLE / 2.0, ROW / 2.0);
        let line = Path::straight(at.moved(0.0, ROW / 2.0), at.moved(SAMPLE, ROW / 2.0));
        let sample = match self {
            Mark::Box(frame) => {
                paint::frame(frame, &Rect::around(middle, 30.0, 17.0)).replace(" class=\"box\"", "")
            }
            Mark::Lack => paint::lack(middle.moved(0.0, -1.0), SAMPLE, "not C"),
            Mark::Line(style) => paint::line(style, &line),
        };
        let words = at.moved(SAMPLE + 8.0, ROW / 2.0 + 4.2);
        let more = format!(" fill=\"{}\"", paint::SOFT);
        sample + &paint::text(words, SMALL, &more, self.meaning())
    }
}

impl Legend {
    /// In rows no wider than this, if a mark alone is not.
    pub fn of(drawing: &Drawing, lines: &[Line], limit: f64) -> Legend {
        let mut legend = Legend {
            marks: Vec::new(),
            width: 0.0,
            height: 0.0,
        };
        let (mut x, mut y) = (0.0, 0.0);
        for mark in marks(drawing, lines) {
            if x > 0.0 && x + mark.width() > limit {
                (x, y) = (0.0, y + ROW);
            }
            legend.marks.push((mark, point(x, y)));
            legend.width = legend.width.max(x + mark.width());
            x += mark.width() + 16.0;
            legend.height = y + ROW;
        }
        legend
    }

    pub fn paint(&self, at: Point) -> String {
        self.marks
            .iter()
            .map(|(mark, place)| mark.paint(at.moved(place.x, place.y)))
            .collect()
    }
}

fn marks(drawing: &Drawing, lines: &[Line]) -> Vec<Mark> {
    let mut marks = Vec::new();
    let nodes = &drawing.nodes;
    if !nodes.is_empty() {
        marks.push(Mark::Box(Frame::Object));
    }
    let has = |style: Style| lines.iter().any(|line| line.style == style);
    // Where all lines are plain there is nothing to tell apart.
    let is_told = |style: &Style| {
        has(*style)
            && Style::ALL
                .iter()
                .any(|other| *other != Style::Plain && has(*other))
    };
    let order = [
        Style::Query,
        Style::View,
        Style::Both,
        Style::Missing,
        Style::Plain,
    ];
    marks.extend(order.into_iter().filter(is_told).map(Mark::Line));
    if nodes.iter().any(|node| node.missing) {
        marks.push(Mark::Box(Frame::Missing));
    }
    if nodes.iter().any(|node| !node.lacks.is_empty()) {
        marks.push(Mark::Lack);
    }
    marks
}
