//! The picture and the graph of a drawing: well formed, complete, nothing on top of
//! anything else, and the same every time.

mod drawings;
mod graph;
mod marks;
mod places;
mod routes;
mod widths;
mod xml;

use bik::drawing::Drawing;
use bik::picture::svg;
use xml::{Element, Rect};

pub fn elements(drawing: &Drawing) -> Vec<Element> {
    match xml::elements(&svg(drawing)) {
        Ok(elements) => elements,
        Err(fault) => panic!("{}: {fault}", drawing.title),
    }
}

/// All text that is shown, with single spaces.
pub fn shown(drawing: &Drawing) -> String {
    let elements = elements(drawing);
    let texts = elements.iter().filter(|element| element.name == "text");
    texts
        .map(|element| element.text.as_str())
        .collect::<Vec<_>>()
        .join(" ")
}

pub fn rects(elements: &[Element], class: &str) -> Vec<Rect> {
    elements
        .iter()
        .filter(|element| element.attribute("class") == Some(class))
        .map(Element::rect)
        .collect()
}

/// How often lines are shown, by the words on them.
pub fn lines(drawing: &Drawing) -> Vec<String> {
    let elements = elements(drawing);
    let titles = elements
        .iter()
        .filter(|element| element.name == "title")
        .skip(1);
    titles.map(|element| element.text.clone()).collect()
}
