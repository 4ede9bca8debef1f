//! The graph for Graphviz.

use crate::drawings::{node, patient, with_edges};
use bik::picture::dot;

#[test]
fn graphs_have_the_same_marks() {
    let graph = dot(&patient());
    let line = |start: &str| {
        let found = graph
            .lines()
            .find(|line| line.trim_start().starts_with(start));
        found
            .unwrap_or_else(|| panic!("no {start} in {graph}"))
            .to_string()
    };
    assert!(
        line("n0 [").contains("patient0\\nMale, Patient, Person")
            && line("n0 [").contains("peripheries=2")
    );
    assert!(line("n1 [").contains("{Alma}, ?her"));
    assert!(line("n4 [").contains("\\nnot Female"));
    assert!(line("n7 [").contains("no Disease") && line("n7 [").contains("dashed"));
    assert!(line("n1 -> n2").contains("bold") && line("n1 -> n2").contains("skilled_in"));
    assert!(line("n0 -> n7").contains("dashed") && line("n0 -> n7").contains("arrowhead=empty"));
    assert!(line("n0 -> n3").matches(":white:").count() == 1);
    assert!(line("n0 -> n1").matches(":white:").count() == 2);
}

#[test]
fn names_in_graphs_are_quoted() {
    let mut drawing = with_edges(1, Vec::new());
    drawing.title = "a \"b\" \\N & c\n<d>".into();
    drawing.nodes[0] = node("q\"\\", &["&lt;"]);
    let graph = dot(&drawing);
    assert!(
        graph.contains("label=\"a \\\"b\\\" \\\\N &amp; c\u{fffd}<d>\";"),
        "{graph}"
    );
    assert!(
        graph.contains("n0 [label=\"q\\\"\\\\\\n&amp;lt;\","),
        "{graph}"
    );
}
