//! Drawings, held to the library.

use super::held::spare;
use super::open::record;
use super::words;
use bik::drawing::{Drawing, Edge};
use bik::model::{File, QueryClass};
use bikuvoa::layout::{self, Signature};
use bikuvoa::{Attribute, Class, Constant, Fact, Mark, Object};

/// That the drawing has a state with an object of the query, which is in the query by
/// the pairs of which the drawing says so. Gives the state's record.
pub fn check(asked: &File, drawing: &Drawing) -> Vec<u16> {
    assert_eq!(drawing.note, None);
    let state = state(asked, drawing, |edge| !edge.missing, true);
    if let Some((schema, spare)) = spare(asked) {
        let query = words(asked, "query");
        let shown = bikuvoa::counterexample(&schema, &query, &spare, &state);
        assert_eq!(shown, Ok(Some(Object(0))));
        let of_query = self::state(asked, drawing, |edge| edge.in_query, true);
        let free = layout::schema(Signature::of(&schema).expect("sizes"), &[]);
        let shown = bikuvoa::counterexample(&free, &query, &spare, &of_query);
        assert_eq!(shown, Ok(Some(Object(0))));
    }
    state
}

/// That the object is in the view by the pairs of which the drawing says so.
pub fn check_view(asked: &File, drawing: &Drawing) {
    let of_view = state(asked, drawing, |edge| edge.in_view, false);
    let selected = bikuvoa::select(&asked.schema(), &words(asked, "view"), &of_view);
    assert!(selected.expect("accepted").contains(&Object(0)));
}

/// Whether something is drawn that the view misses.
pub fn is_missed(drawing: &Drawing) -> bool {
    let at_node = drawing
        .nodes
        .iter()
        .any(|node| node.missing || !node.lacks.is_empty());
    at_node || drawing.edges.iter().any(|edge| edge.missing)
}

/// The state of the nodes and of such edges, with or without the objects of marks.
fn state(
    asked: &File,
    drawing: &Drawing,
    is_kept: impl Fn(&Edge) -> bool,
    with_marks: bool,
) -> Vec<u16> {
    let query = asked.query("query").expect("a query");
    let nodes = drawing.nodes.iter().filter(|node| !node.missing);
    let mut facts = Vec::new();
    for (object, node) in nodes.clone().enumerate() {
        let object = Object(object as u16);
        for name in &node.classes {
            let place = asked
                .names
                .classes
                .iter()
                .position(|class| class.text == *name);
            let class = Class(place.expect("a class") as u16);
            facts.push(Fact::Member { class, object });
        }
        let called = node
            .called
            .iter()
            .map(|name| called(asked, query, name, object));
        facts.extend(called.filter(|fact| with_marks || !matches!(fact, Fact::Choice { .. })));
    }
    for edge in drawing.edges.iter().filter(|edge| is_kept(edge)) {
        let mut attributes = asked.names.attributes.iter();
        let place = attributes.position(|known| known.name.text == edge.attribute);
        facts.push(Fact::Pair {
            attribute: Attribute(place.expect("an attribute") as u16),
            first: Object(edge.from as u16),
            second: Object(edge.to as u16),
        });
    }
    record(nodes.count() as u16, &facts)
}

/// What `{constant0}` or `?0` says of the object.
fn called(asked: &File, query: &QueryClass, name: &str, object: Object) -> Fact {
    if let Some(name) = name.strip_prefix('?') {
        let known = query.marks.iter().find(|(known, _)| known == name);
        let number = known.map_or_else(|| name.parse().expect("a number"), |(_, mark)| mark.0);
        let mark = Mark(number);
        return Fact::Choice { mark, object };
    }
    let name = name
        .strip_prefix('{')
        .and_then(|name| name.strip_suffix('}'));
    let mut constants = asked.names.constants.iter();
    let place = constants.position(|known| Some(known.name.text.as_str()) == name);
    Fact::Name {
        constant: Constant(place.expect("a constant") as u16),
        object,
    }
}

/// A drawing in lines.
pub fn told(drawing: &Drawing) -> String {
    let mut text = String::new();
    for node in &drawing.nodes {
        text += if node.missing { "missing " } else { "" };
        text += &node.name;
        for word in node.classes.iter().chain(&node.called) {
            text += &format!(" {word}");
        }
        for lack in &node.lacks {
            text += &format!(" lacks {lack}");
        }
        text += "\n";
    }
    for edge in &drawing.edges {
        text += &format!("{} -{}-> {}", edge.from, edge.attribute, edge.to);
        text += if edge.in_query { " in query" } else { "" };
        text += if edge.in_view { " in view" } else { "" };
        text += if edge.missing { " missing" } else { "" };
        text += "\n";
    }
    text
}
