//! A reader for as much XML as pictures have. It is strict: what it reads is well
//! formed.

use super::widths::{BOLD, REGULAR};

#[derive(Clone, Debug, Default)]
pub struct Element {
    pub name: String,
    pub attributes: Vec<(String, String)>,
    /// Its own text, not that of elements in it.
    pub text: String,
    /// How far the groups around it move it.
    moved: (f64, f64),
}

#[derive(Clone, Copy, Debug, PartialEq)]
pub struct Rect {
    pub x: f64,
    pub y: f64,
    pub width: f64,
    pub height: f64,
}

impl Rect {
    /// Whether a point is this near to the border.
    pub fn borders(&self, (x, y): (f64, f64), near: f64) -> bool {
        let dot = Rect {
            x,
            y,
            width: 0.0,
            height: 0.0,
        };
        self.grown(near + 0.01).holds(&dot) && !self.grown(-near - 0.01).holds(&dot)
    }

    pub fn meets(&self, other: &Rect) -> bool {
        let beside = self.x + self.width <= other.x || other.x + other.width <= self.x;
        let above = self.y + self.height <= other.y || other.y + other.height <= self.y;
        !beside && !above
    }

    pub fn holds(&self, other: &Rect) -> bool {
        let across = self.x <= other.x && other.x + other.width <= self.x + self.width;
        across && self.y <= other.y && other.y + other.height <= self.y + self.height
    }

    pub fn grown(&self, by: f64) -> Rect {
        Rect {
            x: self.x - by,
            y: self.y - by,
            width: self.width + 2.0 * by,
            height: self.height + 2.0 * by,
        }
    }
}

impl Element {
    pub fn attribute(&self, name: &str) -> Option<&str> {
        self.attributes
            .iter()
            .find(|(other, _)| other == name)
            .map(|(_, value)| value.as_str())
    }

    /// A number; one that is not there is 0.
    pub fn number(&self, name: &str) -> f64 {
        self.attribute(name).map_or(0.0, |value| {
            value.parse().unwrap_or_else(|_| panic!("{name}={value}"))
        })
    }

    pub fn rect(&self) -> Rect {
        Rect {
            x: self.number("x") + self.moved.0,
            y: self.number("y") + self.moved.1,
            width: self.number("width"),
            height: self.number("height"),
        }
    }

    /// Where a text is in DejaVu Sans, one of the widest fonts; other letters than those
    /// of ASCII count as an `n`.
    pub fn text_rect(&self) -> Rect {
        let size = self.number("font-size");
        let is_bold = self.attribute("font-weight") == Some("bold");
        let widths = if is_bold { &BOLD } else { &REGULAR };
        let letter = |c: char| {
            widths
                .get((c as usize).wrapping_sub(32))
                .unwrap_or(&widths[78])
        };
        let thousandths: u32 = self.text.chars().map(|c| u32::from(*letter(c))).sum();
        let width = f64::from(thousandths) * size / 1000.0;
        let left = if self.attribute("text-anchor") == Some("middle") {
            width / 2.0
        } else {
            0.0
        };
        Rect {
            x: self.number("x") + self.moved.0 - left,
            y: self.number("y") + self.moved.1 - 0.76 * size,
            width,
            height: size,
        }
    }

    /// Whether it is the head of an arrow.
    pub fn is_head(&self) -> bool {
        self.attribute("class") == Some("head")
    }

    /// The ends of a path's pieces.
    pub fn corners(&self) -> Vec<(f64, f64)> {
        let ends = pieces(self.attribute("d").unwrap_or_default());
        let ends = ends.iter().filter_map(|piece| piece.last());
        ends.map(|p| (p.0 + self.moved.0, p.1 + self.moved.1))
            .collect()
    }

    /// Points along a path of straight pieces and curves.
    pub fn points(&self) -> Vec<(f64, f64)> {
        let mut points: Vec<(f64, f64)> = Vec::new();
        for piece in pieces(self.attribute("d").unwrap_or_default()) {
            let mut controls: Vec<(f64, f64)> = points.last().copied().into_iter().collect();
            controls.extend(
                piece
                    .iter()
                    .map(|p| (p.0 + self.moved.0, p.1 + self.moved.1)),
            );
            points.extend((0..=40).map(|k| along(&controls, f64::from(k) / 40.0)));
        }
        points
    }
}

/// The points of each piece of path data.
fn pieces(data: &str) -> Vec<Vec<(f64, f64)>> {
    let pieces = data
        .trim_end_matches('Z')
        .split(|c: char| c.is_ascii_uppercase())
        .skip(1);
    let numbers = |piece: &str| {
        piece
            .split(' ')
            .map(|word| word.parse().unwrap_or_else(|_| panic!("{data}")))
            .collect()
    };
    let paired = |numbers: Vec<f64>| numbers.chunks(2).map(|pair| (pair[0], pair[1])).collect();
    pieces.map(|piece| paired(numbers(piece))).collect()
}

/// The point at `t` of the curve with these controls.
fn along(controls: &[(f64, f64)], t: f64) -> (f64, f64) {
    let mut controls = controls.to_vec();
    while controls.len() > 1 {
        let mixed = controls.windows(2).map(|pair| {
            let ((ax, ay), (bx, by)) = (pair[0], pair[1]);
            (ax + (bx - ax) * t, ay + (by - ay) * t)
        });
        controls = mixed.collect();
    }
    controls[0]
}

/// All elements, in the order of their beginnings.
pub fn elements(text: &str) -> Result<Vec<Element>, String> {
    let mut elements: Vec<Element> = Vec::new();
    let mut open: Vec<usize> = Vec::new();
    let mut rest = text;
    while let Some((before, after)) = rest.split_once('<') {
        add_text(before, &open, &mut elements)?;
        let (tag, later) = after.split_once('>').ok_or("a tag is not closed")?;
        rest = later;
        if let Some(name) = tag.strip_prefix('/') {
            let begun = open.pop().ok_or("too many ends")?;
            if elements[begun].name != name {
                return Err(format!("{name} ends {}", elements[begun].name));
            }
            continue;
        }
        if open.is_empty() && !elements.is_empty() {
            return Err("two roots".into());
        }
        let around = open.last().map_or((0.0, 0.0), |&i| elements[i].moved);
        if !tag.ends_with('/') {
            open.push(elements.len());
        }
        elements.push(element(tag.trim_end_matches('/'), around)?);
    }
    match open.is_empty() && rest.trim().is_empty() {
        true => Ok(elements),
        false => Err("the text ends within an element".into()),
    }
}

fn add_text(text: &str, open: &[usize], elements: &mut [Element]) -> Result<(), String> {
    match open.last() {
        Some(&i) => elements[i].text += &unescaped(text)?,
        None if text.trim().is_empty() => {}
        None => return Err(format!("text outside: {text}")),
    }
    Ok(())
}

fn element(tag: &str, around: (f64, f64)) -> Result<Element, String> {
    let (name, mut rest) = tag.split_once(' ').unwrap_or((tag, ""));
    if name.is_empty() || !name.chars().all(|c| c.is_ascii_alphanumeric()) {
        return Err(format!("no name of an element: {name}"));
    }
    let mut element = Element {
        name: name.into(),
        moved: around,
        ..Element::default()
    };
    while !rest.trim().is_empty() {
        let (name, after) = rest
            .split_once("=\"")
            .ok_or_else(|| format!("no attribute: {rest}"))?;
        let (value, later) = after
            .split_once('"')
            .ok_or_else(|| format!("no end: {after}"))?;
        let name = name.trim();
        if element.attribute(name).is_some()
            || !name.chars().all(|c| c.is_ascii_alphabetic() || c == '-')
        {
            return Err(format!("attribute {name}"));
        }
        element.attributes.push((name.into(), unescaped(value)?));
        rest = later;
    }
    if let Some(moved) = element
        .attribute("transform")
        .and_then(|value| value.strip_prefix("translate("))
    {
        let numbers: Vec<f64> = moved
            .trim_end_matches(')')
            .split(' ')
            .filter_map(|word| word.parse().ok())
            .collect();
        element.moved = (around.0 + numbers[0], around.1 + numbers[1]);
    }
    Ok(element)
}

fn unescaped(text: &str) -> Result<String, String> {
    let mut pieces = text.split('&');
    let mut plain = pieces.next().unwrap_or_default().to_string();
    for piece in pieces {
        let (entity, rest) = piece
            .split_once(';')
            .ok_or_else(|| format!("a bare & in {text}"))?;
        plain.push(match entity {
            "amp" => '&',
            "lt" => '<',
            "gt" => '>',
            "quot" => '"',
            _ => return Err(format!("entity {entity}")),
        });
        plain += rest;
    }
    let is_forbidden =
        |c: &char| (c.is_control() && *c != '\n') || ['\u{fffe}', '\u{ffff}'].contains(c);
    match plain.chars().find(is_forbidden) {
        Some(c) => Err(format!("control character {c:?}")),
        None => Ok(plain),
    }
}
