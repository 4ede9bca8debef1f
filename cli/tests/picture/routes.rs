//! Lines run beside boxes, from one to the other, and do not tangle.

use crate::drawings::{all, edge, with_edges};
use crate::xml::{Element, Rect};
use crate::{elements, rects};
use bik::drawing::{Drawing, Node};

#[test]
fn lines_run_through_no_box_and_stay_on_the_page() {
    for drawing in all() {
        let elements = elements(&drawing);
        let boxes = rects(&elements, "box");
        let page = rects(&elements, "page")[0];
        let paths = elements.iter().filter(|element| element.name == "path");
        for path in paths {
            for point in path.points() {
                let dot = Rect {
                    x: point.0,
                    y: point.1,
                    width: 0.0,
                    height: 0.0,
                };
                assert!(page.holds(&dot), "{}: {point:?}", drawing.title);
                assert!(
                    !boxes.iter().any(|one| one.grown(-0.5).meets(&dot)),
                    "{}: {point:?}",
                    drawing.title
                );
            }
        }
    }
}

/// A line as it is drawn: the words on it, its two boxes, its corners and its head's.
struct Drawn {
    words: String,
    from: Rect,
    to: Rect,
    corners: Vec<(f64, f64)>,
    head: Vec<(f64, f64)>,
}

fn drawn(drawing: &Drawing) -> Vec<Drawn> {
    let elements = elements(drawing);
    let boxes = rects(&elements, "box");
    let find = |is_it: &dyn Fn(&str) -> bool| {
        let name = |node: &Node| {
            if node.missing {
                format!("no {}", node.name)
            } else {
                node.name.clone()
            }
        };
        let place = drawing.nodes.iter().position(|node| is_it(&name(node)));
        boxes[place.expect("an object of this name")]
    };
    let titles = (2..elements.len()).filter(|&i| elements[i].name == "title");
    let line = |i: usize| {
        let words = elements[i].text.clone();
        let head = elements[i..].iter().find(|element| element.is_head());
        Drawn {
            from: find(&|name| words.starts_with(&format!("{name} "))),
            to: find(&|name| words.ends_with(&format!(" {name}"))),
            corners: elements[i + 1].corners(),
            head: head.map(Element::corners).expect("a head"),
            words,
        }
    };
    titles.map(line).collect()
}

#[test]
fn lines_begin_at_one_box_and_have_their_tips_at_the_other() {
    for line in all().iter().flat_map(drawn) {
        let (words, start, tip) = (line.words, line.corners[0], line.head[1]);
        assert!(line.from.borders(start, 0.2), "{words} begins at {start:?}");
        assert!(line.to.borders(tip, 2.0), "{words} has its tip at {tip:?}");
        let (dx, dy) = (
            line.head[0].0 - line.head[2].0,
            line.head[0].1 - line.head[2].1,
        );
        assert!(dx.abs() + dy.abs() > 6.0, "{words} has no head to see");
    }
}

#[test]
fn lines_leave_a_box_in_the_order_in_which_they_arrive() {
    for drawing in all() {
        // From each end, the other box and the height at which the line leaves.
        let ends = drawn(&drawing).into_iter().flat_map(|line| {
            let (start, tip) = (line.corners[0].1, line.head[1].1);
            [
                (line.from, line.to, start, line.words.clone()),
                (line.to, line.from, tip, line.words),
            ]
        });
        let ends: Vec<(Rect, Rect, f64, String)> = ends.filter(|end| end.0.x != end.1.x).collect();
        for (here, upper, first, words) in &ends {
            let lower = |end: &&(Rect, Rect, f64, String)| {
                end.0 == *here && end.1.x == upper.x && end.1.y > upper.y
            };
            for (_, _, second, others) in ends.iter().filter(lower) {
                assert!(
                    first < second,
                    "{}: {words} is not above {others}",
                    drawing.title
                );
            }
        }
    }
}

#[test]
fn lines_do_not_run_on_top_of_each_other() {
    for drawing in all() {
        let upright = |line: Drawn| {
            let pairs = line
                .corners
                .windows(2)
                .map(|pair| (pair[0], pair[1]))
                .collect::<Vec<_>>();
            let steep = pairs
                .into_iter()
                .filter(|(a, b)| a.0 == b.0 && (a.1 - b.1).abs() > 2.0);
            steep
                .map(|(a, b)| (a.0, a.1.min(b.1), a.1.max(b.1)))
                .collect::<Vec<_>>()
        };
        let stretches: Vec<(f64, f64, f64)> =
            drawn(&drawing).into_iter().flat_map(upright).collect();
        for (i, one) in stretches.iter().enumerate() {
            let met = stretches[..i]
                .iter()
                .find(|other| (one.0 - other.0).abs() < 5.0 && one.1 < other.2 && other.1 < one.2);
            assert_eq!(met, None, "{}: {one:?}", drawing.title);
        }
    }
}

#[test]
fn lines_without_need_do_not_cross() {
    // In the order of the objects 3 to 4 would cross 2 to 5, and 6 to 9 all of 7 and 8.
    let pairs = [
        (0, 1),
        (0, 2),
        (0, 3),
        (1, 4),
        (2, 5),
        (3, 4),
        (4, 6),
        (5, 7),
        (5, 8),
        (6, 9),
        (7, 10),
        (8, 11),
        (4, 9),
    ];
    let edges = pairs.map(|(from, to)| edge(from, "a", to, "")).to_vec();
    let boxes = rects(&elements(&with_edges(12, edges)), "box");
    for (a, b) in pairs {
        for (c, d) in pairs {
            let is_beside = boxes[a].x == boxes[c].x && boxes[b].x == boxes[d].x;
            let crosses = boxes[a].y < boxes[c].y && boxes[b].y > boxes[d].y;
            assert!(!is_beside || !crosses, "{a} to {b} crosses {c} to {d}");
        }
    }
}

#[test]
fn lines_are_straight_where_they_can_be() {
    let pairs = [(0, 1), (0, 2), (0, 3), (1, 4), (3, 5), (5, 6)];
    let edges = pairs.map(|(from, to)| edge(from, "next", to, ""));
    let boxes = rects(&elements(&with_edges(7, edges.to_vec())), "box");
    assert_eq!(
        [boxes[2].y, boxes[4].y, boxes[5].y, boxes[6].y],
        [boxes[0].y, boxes[1].y, boxes[3].y, boxes[3].y]
    );
}
