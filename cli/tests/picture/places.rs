//! Boxes, labels and text have places of their own.

use crate::drawings::{all, edge, star, with_edges};
use crate::xml::{Element, Rect};
use crate::{elements, lines, rects};

#[test]
fn boxes_are_apart_and_on_the_page() {
    for drawing in all() {
        let elements = elements(&drawing);
        let boxes = rects(&elements, "box");
        assert_eq!(boxes.len(), drawing.nodes.len());
        let page = rects(&elements, "page")[0];
        for (i, one) in boxes.iter().enumerate() {
            assert!(page.holds(one), "{}: {one:?}", drawing.title);
            let met = boxes[..i].iter().find(|other| one.grown(5.0).meets(other));
            assert_eq!(met, None, "{}: {one:?}", drawing.title);
        }
    }
}

#[test]
fn labels_are_in_no_box_and_on_the_page() {
    for drawing in all() {
        let elements = elements(&drawing);
        let (boxes, labels) = (rects(&elements, "box"), rects(&elements, "halo"));
        assert_eq!(labels.len(), lines(&drawing).len());
        let page = rects(&elements, "page")[0];
        for label in &labels {
            assert!(page.holds(label), "{}: {label:?}", drawing.title);
            assert!(
                !boxes.iter().any(|one| one.meets(label)),
                "{}: {label:?}",
                drawing.title
            );
        }
    }
}

#[test]
fn labels_are_apart() {
    for drawing in all() {
        let labels = rects(&elements(&drawing), "halo");
        for (i, label) in labels.iter().enumerate() {
            let met = labels[..i]
                .iter()
                .find(|other| label.grown(-1.0).meets(other));
            assert_eq!(met, None, "{}: {label:?}", drawing.title);
        }
    }
}

#[test]
fn text_has_room() {
    for drawing in all() {
        let elements = elements(&drawing);
        let page = rects(&elements, "page")[0];
        let frames: Vec<Rect> = [rects(&elements, "box"), rects(&elements, "halo")].concat();
        for element in elements.iter().filter(|element| element.name == "text") {
            let place = element.text_rect();
            assert!(
                page.grown(-8.0).holds(&place),
                "{}: {:?}",
                drawing.title,
                element.text
            );
            let middle = (place.x + place.width / 2.0, place.y + place.height / 2.0);
            let around = |one: &&Rect| {
                one.holds(&Rect {
                    x: middle.0,
                    y: middle.1,
                    width: 0.0,
                    height: 0.0,
                })
            };
            if let Some(one) = frames.iter().find(around) {
                assert!(
                    one.grown(-0.5).holds(&place),
                    "{}: {:?}",
                    drawing.title,
                    element.text
                );
            }
        }
    }
}

#[test]
fn the_object_is_in_the_first_column_and_framed_twice() {
    for drawing in all().iter().filter(|drawing| !drawing.nodes.is_empty()) {
        let elements = elements(drawing);
        let boxes = rects(&elements, "box");
        assert!(
            boxes.iter().all(|one| boxes[0].x <= one.x),
            "{}",
            drawing.title
        );
        let inside = |element: &&Element| {
            element.name == "rect" && boxes[0].grown(-2.0).holds(&element.rect())
        };
        let same = |element: &&Element| element.rect().grown(4.5).x == boxes[0].x;
        assert_eq!(
            elements.iter().filter(inside).filter(same).count(),
            1,
            "{}",
            drawing.title
        );
    }
}

#[test]
fn columns_are_by_distance() {
    let mut drawing = with_edges(
        5,
        vec![
            edge(1, "a", 0, ""),
            edge(1, "a", 2, ""),
            edge(3, "m", 2, "m"),
        ],
    );
    drawing.nodes[3].missing = true;
    let boxes = rects(&elements(&drawing), "box");
    assert!(boxes[0].x < boxes[1].x && boxes[1].x < boxes[2].x && boxes[2].x < boxes[3].x);
    // What is not connected is below.
    assert!(boxes[..4].iter().all(|one| one.y + one.height < boxes[4].y));
}

#[test]
fn crowded_columns_are_relieved() {
    let boxes = rects(&elements(&star()), "box");
    let columns = |x: f64| boxes.iter().filter(|one| one.x == x).count();
    let most = boxes.iter().map(|one| columns(one.x)).max();
    assert!(most < Some(24), "{most:?} boxes above each other");
}
