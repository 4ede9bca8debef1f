//! What is written in the box of an object, and how large that makes it.

use super::measure::{self, LINE, NAME, SMALL};
use crate::drawing::Node;

/// Room between the border and the text.
const PADDING: f64 = 13.0;
/// No text in a box is wider; what is, is broken.
const LIMIT: f64 = 340.0;
/// Lists of classes are broken earlier.
const LIST: f64 = 200.0;

#[derive(Clone, Copy, Debug, PartialEq, Eq)]
pub enum Look {
    Name,
    Classes,
    Called,
    Lacks,
}

pub struct Row {
    pub text: String,
    pub look: Look,
}

pub struct Card {
    pub rows: Vec<Row>,
    pub width: f64,
    pub height: f64,
}

impl Look {
    pub fn height(self) -> f64 {
        match self {
            Look::Name => 19.0,
            Look::Classes | Look::Called => LINE,
            Look::Lacks => 22.0,
        }
    }

    pub fn width(self, text: &str) -> f64 {
        match self {
            Look::Name => measure::width(text, NAME, true),
            Look::Classes | Look::Called => measure::width(text, SMALL, false),
            Look::Lacks => measure::width(text, SMALL, false) + 14.0,
        }
    }
}

/// The name as it is shown.
pub fn shown(node: &Node) -> String {
    match node.missing {
        true => format!("no {}", node.name),
        false => node.name.clone(),
    }
}

/// What is lacking, one text for each.
pub fn lacks(node: &Node) -> impl Iterator<Item = String> + '_ {
    node.lacks.iter().map(|lack| format!("not {lack}"))
}

impl Card {
    pub fn of(node: &Node) -> Card {
        let mut rows = Vec::new();
        let mut add = |look: Look, lines: Vec<String>| {
            rows.extend(lines.into_iter().map(|text| Row { text, look }));
        };
        add(Look::Name, measure::wrap(&shown(node), NAME, true, LIMIT));
        add(Look::Classes, list(&node.classes));
        add(Look::Called, list(&node.called));
        for lack in lacks(node) {
            add(Look::Lacks, measure::wrap(&lack, SMALL, false, LIMIT));
        }
        let widths = rows.iter().map(|row| row.look.width(&row.text));
        let height: f64 = rows.iter().map(|row| row.look.height()).sum();
        Card {
            width: widths.fold(44.0, f64::max) + 2.0 * PADDING,
            height: height + 18.0,
            rows,
        }
    }
}

/// Names with commas between them, in lines that are not too wide unless a single
/// name is.
pub fn list(names: &[String]) -> Vec<String> {
    let mut lines: Vec<String> = Vec::new();
    for (i, name) in names.iter().enumerate() {
        let comma = if i + 1 < names.len() { "," } else { "" };
        if let Some(line) = lines.last_mut() {
            let longer = format!("{line} {name}{comma}");
            if measure::width(&longer, SMALL, false) <= LIST {
                *line = longer;
                continue;
            }
        }
        lines.extend(measure::wrap(
            &format!("{name}{comma}"),
            SMALL,
            false,
            LIMIT,
        ));
    }
    lines
}
