//! The drawing as a graph in Graphviz's language, with the same marks as the picture.

use super::card;
use super::lines::{self, Line, Style};
use super::paint::{INK, MISSING, OBJECT, QUERY, SOFT, VIEW};
use crate::drawing::{Drawing, Node};

/// The drawing as a graph for Graphviz.
pub fn dot(drawing: &Drawing) -> String {
    let mut graph = String::from("digraph {\n  rankdir=LR;\n  bgcolor=white;\n  labelloc=t;\n");
    let title = std::iter::once(drawing.title.as_str());
    let title: Vec<&str> = title.chain(drawing.note.as_deref()).collect();
    graph += &format!("  fontname=\"DejaVu Sans\";\n  label={};\n", quoted(&title));
    graph += "  node [shape=box, style=rounded, fontname=\"DejaVu Sans\", fontsize=12];\n";
    graph += "  edge [fontname=\"DejaVu Sans\", fontsize=11];\n";
    for (i, node) in drawing.nodes.iter().enumerate() {
        graph += &format!(
            "  n{i} [label={}{}];\n",
            quoted(&rows(node)),
            looks(i, node)
        );
    }
    for line in lines::lines(drawing) {
        let Line { from, to, .. } = line;
        let label = quoted(&[line.attributes.join(", ")]);
        graph += &format!(
            "  n{from} -> n{to} [label={label}, {}];\n",
            strokes(line.style)
        );
    }
    graph + "}\n"
}

fn rows(node: &Node) -> Vec<String> {
    let mut rows = vec![card::shown(node)];
    let lists = [&node.classes, &node.called]
        .into_iter()
        .filter(|list| !list.is_empty());
    rows.extend(lists.map(|list| list.join(", ")));
    rows.extend(card::lacks(node));
    rows
}

fn looks(i: usize, node: &Node) -> String {
    match (i, node.missing) {
        (0, _) => {
            format!(", peripheries=2, penwidth=2, color=\"{OBJECT}\", fontcolor=\"{OBJECT}\"")
        }
        (_, true) => {
            format!(", style=\"rounded,dashed\", color=\"{MISSING}\", fontcolor=\"{MISSING}\"")
        }
        _ => format!(", color=\"{SOFT}\", fontcolor=\"{INK}\""),
    }
}

/// Graphviz draws a list of colours as lines side by side.
fn strokes(style: Style) -> String {
    match style {
        Style::Plain => format!("color=\"{SOFT}\""),
        Style::Query => format!("style=bold, penwidth=3, color=\"{QUERY}\", fontcolor=\"{QUERY}\""),
        Style::View => format!("color=\"{VIEW}:white:{VIEW}\", penwidth=1.5, fontcolor=\"{VIEW}\""),
        Style::Both => format!(
            "color=\"{VIEW}:white:{QUERY}:white:{VIEW}\", penwidth=2, fontcolor=\"{QUERY}\""
        ),
        Style::Missing => {
            format!("style=dashed, arrowhead=empty, color=\"{MISSING}\", fontcolor=\"{MISSING}\"")
        }
    }
}

/// Lines of text as one string. Graphviz reads entities in it as in HTML.
fn quoted(rows: &[impl AsRef<str>]) -> String {
    let mut text = String::from("\"");
    for (i, row) in rows.iter().enumerate() {
        text += if i > 0 { "\\n" } else { "" };
        for c in row.as_ref().chars() {
            match c {
                '"' => text += "\\\"",
                '\\' => text += "\\\\",
                '&' => text += "&amp;",
                c if c.is_control() => text.push('\u{fffd}'),
                c => text.push(c),
            }
        }
    }
    text + "\""
}
