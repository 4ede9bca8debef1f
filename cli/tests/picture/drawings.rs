//! Drawings to look at and to test with.

use bik::drawing::{Drawing, Edge, Node};

fn texts(texts: &[&str]) -> Vec<String> {
    texts.iter().map(|text| text.to_string()).collect()
}

pub fn node(name: &str, classes: &[&str]) -> Node {
    Node {
        name: name.into(),
        classes: texts(classes),
        called: Vec::new(),
        lacks: Vec::new(),
        missing: false,
    }
}

/// An edge with `q`, `v` and `m` for what the query uses, the view uses and misses.
pub fn edge(from: usize, attribute: &str, to: usize, marks: &str) -> Edge {
    Edge {
        from,
        to,
        attribute: attribute.into(),
        in_query: marks.contains('q'),
        in_view: marks.contains('v'),
        missing: marks.contains('m'),
    }
}

/// Objects `object0` and so forth with these edges.
pub fn with_edges(count: usize, edges: Vec<Edge>) -> Drawing {
    Drawing {
        title: format!("{count} objects, {} pairs", edges.len()),
        nodes: (0..count)
            .map(|i| node(&format!("object{i}"), &["Class"]))
            .collect(),
        edges,
        note: None,
    }
}

pub fn rowing() -> Drawing {
    let mut nodes = vec![
        node("person0", &["Person"]),
        node("strap1", &["Strap"]),
        node("beat2", &["Beat"]),
        node("session3", &["Session"]),
        node("Session", &[]),
    ];
    nodes[0].lacks = texts(&["Rower"]);
    nodes[4].missing = true;
    Drawing {
        title: "OPEN  some object of Recorded need not be in Rowers".into(),
        nodes,
        edges: vec![
            edge(0, "wears", 1, "q"),
            edge(1, "records", 2, "q"),
            edge(2, "during", 3, "q"),
            edge(0, "attends", 4, "m"),
        ],
        note: None,
    }
}

pub fn patient() -> Drawing {
    let mut nodes = vec![
        node("patient0", &["Male", "Patient", "Person"]),
        node("doctor1", &["Female", "Doctor", "Person"]),
        node("disease2", &["Disease", "Topic"]),
        node("string3", &["String"]),
        node("doctor4", &["Doctor"]),
        node("disease5", &["Disease"]),
        node("string6", &["String"]),
        node("Disease", &[]),
    ];
    nodes[1].called = texts(&["{Alma}", "?her"]);
    nodes[4].lacks = texts(&["Female"]);
    nodes[7].missing = true;
    Drawing {
        title: "OPEN  some object of QueryPatient need not be in ViewPatient".into(),
        nodes,
        edges: vec![
            edge(0, "consults", 1, "qv"),
            edge(0, "suffers", 2, "qv"),
            edge(1, "skilled_in", 2, "q"),
            edge(0, "name", 3, "v"),
            edge(0, "consults", 4, "v"),
            edge(4, "skilled_in", 5, "v"),
            edge(1, "name", 6, ""),
            edge(0, "suffers", 7, "m"),
            edge(4, "name", 3, ""),
            edge(4, "consults", 0, ""),
            edge(1, "consults", 1, ""),
            edge(0, "knows", 1, "qv"),
        ],
        note: Some("2 further objects are not drawn: neither query nor view uses them.".into()),
    }
}

pub fn chain() -> Drawing {
    let marks = ["q", "v", "qv", ""];
    with_edges(
        18,
        (0..17)
            .map(|i| edge(i, "next", i + 1, marks[i % 4]))
            .collect(),
    )
}

pub fn star() -> Drawing {
    let ray = |i: usize| match i % 3 {
        0 => edge(i, "to", 0, ""),
        1 => edge(0, "attribute", i, "q"),
        _ => edge(0, "attribute", i, ""),
    };
    with_edges(40, (1..40).map(ray).collect())
}

/// A stem with many leaves at two of its objects, so that two columns are crowded.
pub fn broom() -> Drawing {
    let stem = [
        edge(0, "first", 1, "q"),
        edge(1, "second", 2, "v"),
        edge(2, "third", 3, "qv"),
    ];
    let leaf = |i: usize| {
        edge(
            if i < 24 { 1 } else { 2 },
            "leaf",
            i,
            if i % 5 == 0 { "m" } else { "" },
        )
    };
    with_edges(40, stem.into_iter().chain((4..40).map(leaf)).collect())
}

/// Random but always the same.
pub fn random(count: usize, pairs: usize, seed: u64) -> Drawing {
    let mut seed = seed;
    let mut below = |limit: usize| {
        seed = seed
            .wrapping_mul(6364136223846793005)
            .wrapping_add(1442695040888963407);
        (seed >> 33) as usize % limit
    };
    let attributes = ["wears", "records", "during", "attends", "stroked_by"];
    let marks = ["", "", "", "", "", "q", "v", "qv", "m"];
    let pair = |_| {
        edge(
            below(count),
            attributes[below(5)],
            below(count),
            marks[below(9)],
        )
    };
    let mut drawing = with_edges(count, (0..pairs).map(pair).collect());
    for node in drawing.nodes.iter_mut().step_by(7) {
        node.classes = texts(&["Person", "Rower"]);
        node.lacks = texts(&["Strap"]);
    }
    drawing
}

pub fn long() -> Drawing {
    let pair = |i: usize| {
        edge(
            i % 4,
            &format!("an_attribute_of_30_letters_{i:03}"),
            (2 * i + 1) % 9,
            ["", "q", "v"][i % 3],
        )
    };
    let mut drawing = with_edges(9, (0..12).map(pair).collect());
    drawing.title =
        "OPEN  some object of AQueryWithAVeryLongNameThatGoesOnAndOn need not be in AnotherOne"
            .into();
    for (i, node) in drawing.nodes.iter_mut().enumerate() {
        node.name = format!("abcdefghijklmnopqrstuvwxyzab_{i}");
        node.classes = texts(&[
            "AClassWithALongNameOf30Letters",
            "AnotherClassWithALongNameOf_30",
        ]);
        node.lacks = texts(&["AThirdClassWithALongNameOf_30_"]);
    }
    drawing
}

/// Every look between the same two, both ways, and at one.
pub fn looks() -> Drawing {
    let ends = [(0, 1), (1, 0), (0, 0), (3, 4), (3, 3)];
    let pairs = ["", "q", "v", "qv", "m"]
        .into_iter()
        .flat_map(|marks| ends.map(|(from, to)| edge(from, &format!("a{marks}"), to, marks)));
    with_edges(6, pairs.collect())
}

pub fn special() -> Drawing {
    let mut drawing = with_edges(
        3,
        vec![edge(0, "<a> & \"b\"", 1, "q"), edge(1, "größe", 2, "m")],
    );
    drawing.title = "<title> & 'more' \"quoted\" ]]> --".into();
    drawing.nodes[0] = node("Ünïcödé<&>", &["対象物", "Ελληνικά", "\"x\""]);
    drawing.nodes[1].called = texts(&["{Müller}", "?ψ"]);
    drawing.nodes[2].lacks = texts(&["Größe & <b>"]);
    drawing.nodes[2].missing = true;
    drawing.note = Some("a < b > c & d".into());
    drawing
}

pub fn all() -> Vec<Drawing> {
    let mut drawings = vec![
        rowing(),
        patient(),
        chain(),
        star(),
        broom(),
        long(),
        looks(),
        special(),
    ];
    drawings.extend(
        [(40, 80), (41, 60), (41, 30), (12, 20), (6, 9), (3, 8)]
            .map(|(count, pairs)| random(count, pairs, 7)),
    );
    drawings.extend([0, 1, 41].map(|count| with_edges(count, Vec::new())));
    drawings.push(with_edges(
        1,
        vec![edge(0, "itself", 0, "q"), edge(0, "again", 0, "q")],
    ));
    drawings
}
