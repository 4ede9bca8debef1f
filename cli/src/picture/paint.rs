//! The looks of the picture: colours, lines with their heads, boxes and text. What
//! differs in colour differs in form too.

use super::card::{Card, Look};
use super::geometry::{point, Point, Rect, Short};
use super::lines::Style;
use super::measure::{xml, NAME, SMALL};
use super::route::Path;

pub const INK: &str = "#1f2933";
pub const SOFT: &str = "#52606d";
pub const QUERY: &str = "#0063b2";
pub const VIEW: &str = "#007f5f";
/// What the view misses.
pub const MISSING: &str = "#b84a00";
/// The object that the answer is about.
pub const OBJECT: &str = "#c00020";
const PLAIN: &str = "#7b8794";
const DASHES: &str = "6 4";

/// How a box is framed.
#[derive(Clone, Copy, Debug, PartialEq, Eq)]
pub enum Frame {
    Plain,
    Object,
    Missing,
}

pub fn text(at: Point, size: f64, more: &str, text: &str) -> String {
    let (x, y) = (Short(at.x), Short(at.y));
    format!(
        "<text x=\"{x}\" y=\"{y}\" font-size=\"{size}\"{more}>{}</text>\n",
        xml(text)
    )
}

fn rect(rect: &Rect, radius: f64, more: &str) -> String {
    let Rect {
        x,
        y,
        width,
        height,
    } = rect;
    let (x, y, width, height) = (Short(*x), Short(*y), Short(*width), Short(*height));
    format!(
        "<rect x=\"{x}\" y=\"{y}\" width=\"{width}\" height=\"{height}\" rx=\"{radius}\"{more}/>\n"
    )
}

/// A line with its head.
pub fn line(style: Style, path: &Path) -> String {
    // Each stroke is painted on those before it: two rails are a wide line and a
    // white one on it.
    let strokes: &[(&str, f64)] = match style {
        Style::Plain => &[("#fff", 4.0), (PLAIN, 1.4)],
        Style::Query => &[("#fff", 6.4), (QUERY, 3.6)],
        Style::View => &[("#fff", 7.0), (VIEW, 4.8), ("#fff", 2.0)],
        Style::Both => &[("#fff", 11.0), (VIEW, 9.0), ("#fff", 6.2), (QUERY, 3.4)],
        Style::Missing => &[("#fff", 4.6), (MISSING, 2.0)],
    };
    let (length, half, colour) = match style {
        Style::Plain => (8.0, 3.4, PLAIN),
        Style::Query => (12.0, 5.6, QUERY),
        Style::View => (12.0, 5.8, VIEW),
        Style::Both => (14.0, 7.6, QUERY),
        Style::Missing => (11.0, 5.4, MISSING),
    };
    let is_missing = style == Style::Missing;
    let cut = if is_missing { 1.5 } else { length - 1.0 };
    let data = path.shortened(cut).data();
    let mut drawn = String::new();
    for (i, (stroke, width)) in strokes.iter().enumerate() {
        let dashes = match is_missing && i > 0 {
            true => format!(" stroke-dasharray=\"{DASHES}\""),
            false => String::new(),
        };
        let stroke = format!("stroke=\"{stroke}\" stroke-width=\"{width}\"{dashes}");
        drawn += &format!("<path d=\"{data}\" fill=\"none\" {stroke}/>\n");
    }
    drawn + &head(&path.shortened(1.5), length, half, colour, is_missing)
}

/// The head of an arrow: filled, or open if the pair is missing.
fn head(path: &Path, length: f64, half: f64, colour: &str, is_open: bool) -> String {
    let (tip, heading) = (path.tip(), path.heading());
    let back = tip.moved(-length * heading.x, -length * heading.y);
    let side = point(-heading.y * half, heading.x * half);
    let corners = [
        back.moved(side.x, side.y),
        tip,
        back.moved(-side.x, -side.y),
    ];
    let corners = corners
        .map(|p| format!("{} {}", Short(p.x), Short(p.y)))
        .join("L");
    let (end, looks) = match is_open {
        true => (
            "",
            format!("fill=\"none\" stroke=\"{colour}\" stroke-width=\"2\""),
        ),
        false => ("Z", format!("fill=\"{colour}\"")),
    };
    format!("<path class=\"head\" d=\"M{corners}{end}\" {looks} stroke-linejoin=\"round\"/>\n")
}

/// A label on white, so that lines do not run through it.
pub fn label(style: Style, place: &Rect, rows: &[String]) -> String {
    let colour = match style {
        Style::Plain => INK,
        Style::Query | Style::Both => QUERY,
        Style::View => VIEW,
        Style::Missing => MISSING,
    };
    let more = format!(" fill=\"{colour}\" text-anchor=\"middle\"");
    let mut drawn = rect(
        place,
        3.0,
        " class=\"halo\" fill=\"#fff\" fill-opacity=\"0.9\"",
    );
    let step = place.height / rows.len().max(1) as f64;
    for (k, row) in rows.iter().enumerate() {
        let y = place.y + step * (k as f64 + 0.5) + 4.2;
        drawn += &text(point(place.centre().x, y), SMALL, &more, row);
    }
    drawn
}

/// The frame of a box.
pub fn frame(frame: Frame, place: &Rect) -> String {
    let more = |colour: &str, width: &str, more: &str| {
        format!(" class=\"box\" fill=\"#fff\" stroke=\"{colour}\" stroke-width=\"{width}\"{more}")
    };
    match frame {
        Frame::Plain => rect(place, 6.0, &more(SOFT, "1.4", "")),
        Frame::Missing => rect(
            place,
            6.0,
            &more(MISSING, "1.8", &format!(" stroke-dasharray=\"{DASHES}\"")),
        ),
        Frame::Object => {
            let inner = format!(" fill=\"none\" stroke=\"{OBJECT}\" stroke-width=\"1.4\"");
            rect(place, 6.0, &more(OBJECT, "2.8", "")) + &rect(&place.grown(-4.5), 3.0, &inner)
        }
    }
}

/// A box with what is written in it.
pub fn card(style: Frame, place: &Rect, card: &Card) -> String {
    let mut drawn = frame(style, place);
    let text_height: f64 = card.rows.iter().map(|row| row.look.height()).sum();
    let mut top = place.centre().y - text_height / 2.0;
    for row in &card.rows {
        let middle = point(place.centre().x, top + row.look.height() / 2.0);
        top += row.look.height();
        drawn += &match row.look {
            Look::Name => name(style, middle, &row.text),
            Look::Classes => row_text(middle, SOFT, "", &row.text),
            Look::Called => row_text(middle, INK, " font-style=\"italic\"", &row.text),
            Look::Lacks => lack(middle, row.look.width(&row.text), &row.text),
        };
    }
    drawn
}

fn name(style: Frame, middle: Point, name: &str) -> String {
    let colour = match style {
        Frame::Plain => INK,
        Frame::Object => OBJECT,
        Frame::Missing => MISSING,
    };
    let more = format!(" fill=\"{colour}\" font-weight=\"bold\" text-anchor=\"middle\"");
    text(middle.moved(0.0, 4.8), NAME, &more, name)
}

fn row_text(middle: Point, colour: &str, more: &str, row: &str) -> String {
    let more = format!(" fill=\"{colour}\" text-anchor=\"middle\"{more}");
    text(middle.moved(0.0, 4.2), SMALL, &more, row)
}

/// What an object is not, in a dashed frame.
pub fn lack(middle: Point, width: f64, lack: &str) -> String {
    let place = Rect::around(middle.moved(0.0, 1.0), width, 18.0);
    let more = format!(
        " fill=\"#fff6ee\" stroke=\"{MISSING}\" stroke-width=\"1.3\" stroke-dasharray=\"4 3\""
    );
    rect(&place, 9.0, &more) + &row_text(middle.moved(0.0, 1.0), MISSING, "", lack)
}
