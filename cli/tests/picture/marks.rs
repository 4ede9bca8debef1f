//! What is shown, and how it is told apart.

use crate::drawings::{all, edge, rowing, with_edges};
use crate::xml::Element;
use crate::{elements, lines, rects, shown};
use bik::drawing::Drawing;
use bik::picture::{dot, svg};

#[test]
fn pictures_are_well_formed_and_have_a_size() {
    for drawing in all() {
        let elements = elements(&drawing);
        let root = &elements[0];
        assert_eq!(
            (root.name.as_str(), root.attribute("role")),
            ("svg", Some("img"))
        );
        let size = format!("0 0 {} {}", root.number("width"), root.number("height"));
        assert_eq!(root.attribute("viewBox"), Some(size.as_str()));
        assert_eq!(elements[1].name, "title");
        assert_eq!(rects(&elements, "page").len(), 1);
    }
}

#[test]
fn all_names_are_shown() {
    for drawing in all() {
        let shown = shown(&drawing);
        let mut expected: Vec<String> = drawing
            .edges
            .iter()
            .map(|edge| edge.attribute.clone())
            .collect();
        for node in &drawing.nodes {
            expected.push(if node.missing {
                format!("no {}", node.name)
            } else {
                node.name.clone()
            });
            expected.extend(node.classes.iter().chain(&node.called).cloned());
            expected.extend(node.lacks.iter().map(|lack| format!("not {lack}")));
        }
        let lines = [&drawing.title].into_iter().chain(&drawing.note);
        expected.extend(lines.map(|line| line.split_whitespace().collect::<Vec<_>>().join(" ")));
        for text in expected {
            assert!(
                shown.contains(&text),
                "{}: no {text:?} in {shown}",
                drawing.title
            );
        }
    }
}

#[test]
fn the_same_drawing_is_the_same_text() {
    for drawing in all() {
        assert_eq!(svg(&drawing), svg(&drawing.clone()));
        assert_eq!(dot(&drawing), dot(&drawing.clone()));
    }
}

#[test]
fn numbers_are_short() {
    for drawing in all() {
        for element in elements(&drawing) {
            for (name, value) in &element.attributes {
                let words = value.split(|c: char| !c.is_ascii_digit() && c != '.');
                let long = words
                    .filter_map(|word| word.split_once('.'))
                    .find(|(_, tail)| tail.len() > 1);
                assert_eq!(long, None, "{name}={value}");
            }
        }
    }
}

/// A drawing with one line of these marks.
fn marked(marks: &str) -> Drawing {
    with_edges(2, vec![edge(0, "wears", 1, marks)])
}

/// The text without colours, words and what is below the picture.
fn colourless(drawing: &Drawing) -> String {
    let elements = elements(drawing);
    let line = elements
        .iter()
        .filter(|element| element.name == "path")
        .take_while(|element| !element.is_head());
    line.map(|path| {
        format!(
            "{:?} {:?};",
            path.attribute("stroke-width"),
            path.attribute("stroke-dasharray")
        )
    })
    .collect()
}

#[test]
fn lines_are_told_apart_without_colour() {
    let strokes: Vec<String> = ["", "q", "v", "qv", "m"]
        .iter()
        .map(|marks| colourless(&marked(marks)))
        .collect();
    for (i, one) in strokes.iter().enumerate() {
        assert!(!strokes[..i].contains(one), "{one}");
    }
    assert!(strokes[4].contains("6 4") && !strokes[..4].concat().contains("6 4"));
}

#[test]
fn what_is_missing_is_dashed() {
    let drawing = rowing();
    let elements = elements(&drawing);
    let frames: Vec<&Element> = elements
        .iter()
        .filter(|element| element.attribute("class") == Some("box"))
        .collect();
    let dashed: Vec<bool> = frames
        .iter()
        .map(|frame| frame.attribute("stroke-dasharray").is_some())
        .collect();
    assert_eq!(dashed, [false, false, false, false, true]);
}

#[test]
fn the_legend_has_what_is_in_the_picture() {
    let meanings = [
        ("", "another pair"),
        ("q", "the query uses it"),
        ("v", "the view uses it"),
        ("qv", "both use it"),
        ("m", "the view misses it"),
    ];
    for (marks, _) in &meanings[1..] {
        let shown = shown(&marked(marks));
        for (other, meaning) in meanings {
            assert_eq!(
                shown.contains(meaning),
                other == *marks,
                "{marks}: {meaning}"
            );
        }
        assert!(
            shown.contains("the object")
                && !shown.contains("there is none")
                && !shown.contains("the view asks for")
        );
    }
    assert!(!shown(&marked("")).contains("another pair"));
    assert!(
        shown(&rowing()).contains("there is none")
            && shown(&rowing()).contains("the view asks for")
    );
}

#[test]
fn pairs_with_the_same_ends_and_look_share_a_line() {
    let edges = vec![
        edge(0, "a", 1, "q"),
        edge(0, "b", 1, "q"),
        edge(0, "b", 1, "q"),
        edge(0, "c", 1, "v"),
        edge(1, "d", 0, "q"),
    ];
    let drawing = with_edges(2, edges);
    let mut lines = lines(&drawing);
    lines.sort();
    assert_eq!(
        lines,
        [
            "object0 a, b object1",
            "object0 c object1",
            "object1 d object0"
        ]
    );
    assert!(shown(&drawing).contains("a, b"));
}

#[test]
fn edges_without_ends_are_left_out() {
    let drawing = with_edges(
        2,
        vec![
            edge(0, "kept", 1, ""),
            edge(0, "gone", 2, ""),
            edge(9, "gone", 0, "q"),
        ],
    );
    assert!(shown(&drawing).contains("kept") && !shown(&drawing).contains("gone"));
    assert!(dot(&drawing).contains("kept") && !dot(&drawing).contains("gone"));
}

#[test]
fn control_characters_are_replaced() {
    let mut drawing = with_edges(1, Vec::new());
    drawing.nodes[0].name = "a\u{0}b\u{ffff}c\u{1b}".into();
    drawing.title = "one\u{7}".into();
    assert!(shown(&drawing).contains("a\u{fffd}b\u{fffd}c\u{fffd}"));
    assert_eq!(elements(&drawing)[1].text, "one\u{fffd}");
}
