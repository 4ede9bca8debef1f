//! The lines of a picture: pairs with the same ends that look alike are one.

use crate::drawing::{Drawing, Edge};

#[derive(Clone, Copy, Debug, PartialEq, Eq)]
pub enum Style {
    Plain,
    /// Used by the query.
    Query,
    /// Used by the view.
    View,
    /// Used by both.
    Both,
    /// Missed by the view.
    Missing,
}

pub struct Line {
    pub from: usize,
    pub to: usize,
    pub style: Style,
    pub attributes: Vec<String>,
}

impl Style {
    /// All, in the order in which they are painted: what matters comes on top.
    pub const ALL: [Style; 5] = [
        Style::Plain,
        Style::View,
        Style::Query,
        Style::Both,
        Style::Missing,
    ];

    fn of(edge: &Edge) -> Style {
        match (edge.missing, edge.in_query, edge.in_view) {
            (true, _, _) => Style::Missing,
            (_, true, true) => Style::Both,
            (_, true, false) => Style::Query,
            (_, false, true) => Style::View,
            _ => Style::Plain,
        }
    }

    /// How much it matters that such a line is straight and not crossed.
    pub fn weight(self) -> usize {
        match self {
            Style::Plain => 1,
            _ => 3,
        }
    }
}

impl Line {
    /// A piece of it between these two, with or without its attributes.
    pub fn between(&self, from: usize, to: usize, is_named: bool) -> Line {
        Line {
            from,
            to,
            style: self.style,
            attributes: if is_named {
                self.attributes.clone()
            } else {
                Vec::new()
            },
        }
    }

    /// The end that is not this one.
    pub fn other(&self, node: usize) -> usize {
        if self.from == node {
            self.to
        } else {
            self.from
        }
    }
}

/// The lines of a drawing. Edges whose ends are no nodes are left out.
pub fn lines(drawing: &Drawing) -> Vec<Line> {
    let mut lines: Vec<Line> = Vec::new();
    let count = drawing.nodes.len();
    for edge in &drawing.edges {
        if edge.from >= count || edge.to >= count {
            continue;
        }
        let style = Style::of(edge);
        let alike =
            |line: &&mut Line| (line.from, line.to, line.style) == (edge.from, edge.to, style);
        match lines.iter_mut().find(alike) {
            Some(line) if line.attributes.contains(&edge.attribute) => {}
            Some(line) => line.attributes.push(edge.attribute.clone()),
            None => lines.push(Line {
                from: edge.from,
                to: edge.to,
                style,
                attributes: vec![edge.attribute.clone()],
            }),
        }
    }
    lines
}
