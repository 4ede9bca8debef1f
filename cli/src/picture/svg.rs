//! The picture as SVG text.

use super::card::{self, Card};
use super::geometry::{point, Short};
use super::layout::{Layout, Route};
use super::legend::Legend;
use super::lines::{self, Line, Style};
use super::measure::{self, xml, SMALL, TITLE};
use super::paint::{self, Frame};
use crate::drawing::Drawing;

const MARGIN: f64 = 22.0;
/// The picture is at least this wide, and wider if its title is, up to a limit.
const LEAST: f64 = 460.0;
const TITLED: f64 = 720.0;
const FONT: &str = "'DejaVu Sans', Verdana, 'Helvetica Neue', Arial, sans-serif";

/// The drawing as an SVG picture.
pub fn svg(drawing: &Drawing) -> String {
    let lines = lines::lines(drawing);
    let cards: Vec<Card> = drawing.nodes.iter().map(Card::of).collect();
    let layout = Layout::of(&cards, &lines);
    let titled = measure::width(&drawing.title, TITLE, true).min(TITLED);
    let inner = layout.width.max(titled).max(LEAST);
    let title = measure::wrap(&drawing.title, TITLE, true, inner);
    let note = measure::wrap(drawing.note.as_deref().unwrap_or(""), SMALL, false, inner);
    let legend = Legend::of(drawing, &lines, inner);

    let bold = format!(" fill=\"{}\" font-weight=\"bold\"", paint::INK);
    let slanted = format!(" fill=\"{}\" font-style=\"italic\"", paint::SOFT);
    let top = MARGIN + title.len() as f64 * 22.0 + 16.0;
    let below = top + layout.height + 22.0;
    let bottom = below + legend.height + note.len() as f64 * 18.0;
    let body = [
        rows(&title, MARGIN + 14.0, 22.0, TITLE, &bold),
        format!(
            "<g transform=\"translate({} {})\">\n",
            Short(MARGIN),
            Short(top)
        ),
        graph(drawing, &cards, &lines, &layout),
        "</g>\n".into(),
        legend.paint(point(MARGIN, below)),
        rows(&note, below + legend.height + 18.0, 18.0, SMALL, &slanted),
    ];
    let width = inner.max(legend.width) + 2.0 * MARGIN;
    page(&drawing.title, width, bottom + MARGIN, &body.concat())
}

/// Lines of text below each other, the first at this height.
fn rows(rows: &[String], first: f64, step: f64, size: f64, more: &str) -> String {
    let at = |k: usize| point(MARGIN, first + k as f64 * step);
    let rows = rows.iter().enumerate();
    rows.map(|(k, row)| paint::text(at(k), size, more, row))
        .collect()
}

fn page(title: &str, width: f64, height: f64, body: &str) -> String {
    let (width, height) = (Short(width.ceil()), Short(height.ceil()));
    format!(
        "<svg xmlns=\"http://www.w3.org/2000/svg\" role=\"img\" width=\"{width}\" height=\"{height}\" \
         viewBox=\"0 0 {width} {height}\" font-family=\"{FONT}\">\n\
         <title>{}</title>\n\
         <rect class=\"page\" width=\"{width}\" height=\"{height}\" fill=\"#fff\"/>\n{body}</svg>\n",
        xml(title)
    )
}

/// Lines below, then boxes, then labels.
fn graph(drawing: &Drawing, cards: &[Card], lines: &[Line], layout: &Layout) -> String {
    let drawn = || lines.iter().zip(&layout.routes);
    let mut body = String::new();
    for style in Style::ALL {
        for (line, route) in drawn().filter(|(line, _)| line.style == style) {
            body += &edge(drawing, line, route);
        }
    }
    for (i, (node, card)) in drawing.nodes.iter().zip(cards).enumerate() {
        let frame = match (i, node.missing) {
            (0, _) => Frame::Object,
            (_, true) => Frame::Missing,
            _ => Frame::Plain,
        };
        body += &paint::card(frame, &layout.boxes[i], card);
    }
    for (line, route) in drawn() {
        body += &paint::label(line.style, &route.label, &route.rows);
    }
    body
}

/// A line, with words that a browser shows where the mouse is on it.
fn edge(drawing: &Drawing, line: &Line, route: &Route) -> String {
    let name = |i: usize| card::shown(&drawing.nodes[i]);
    let words = format!(
        "{} {} {}",
        name(line.from),
        line.attributes.join(", "),
        name(line.to)
    );
    format!(
        "<g><title>{}</title>\n{}</g>\n",
        xml(&words),
        paint::line(line.style, &route.path)
    )
}
