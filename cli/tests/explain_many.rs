//! Many objects at one place: they are told together, and all of them are drawn unless
//! the picture would have more than 40.

mod explained;

use bik::drawing::Drawing;
use explained::{asked, file};

/// A schema in which each of so many values of `a`, one in each class `C0`, `C1` and so
/// forth, begins a chain with this many objects, in `M1`, `M2` and so forth. The query
/// asks for all these values.
fn chains(count: usize, length: usize, view: &str) -> String {
    let mut text = format!("Attribute a end Attribute b end Class D end View V {view} end\n");
    for i in 1..length {
        text += &format!("Class M{i} end\n");
    }
    for i in 2..length {
        let before = i - 1;
        text += &format!("axiom M{before} needs a axiom M{before} types a: M{i}\n");
    }
    let classes: Vec<String> = (0..count).map(|i| format!("C{i}")).collect();
    for class in &classes {
        text += &format!("Class {class} with attribute, necessary a: M1 end\n");
    }
    text += "QueryClass Q with derived ";
    for class in &classes {
        text += &format!("(a: {class}) ");
    }
    // A state with one object that is in every class is ruled out by this.
    text + "end\naxiom C0 isA D\n"
}

fn drawn(text: &str) -> Drawing {
    let answer = asked(&file("n", text), "Q", "V");
    answer.drawing(&mut |_| {}).expect("a drawing")
}

/// How many objects are drawn, and the note.
fn shown(drawing: &Drawing) -> (usize, Option<&str>) {
    let objects = drawing.nodes.iter().filter(|node| !node.missing);
    (objects.count(), drawing.note.as_deref())
}

/// How many objects lack a `D`, and how many pairs the view is said to use.
fn marked(drawing: &Drawing) -> (usize, usize) {
    let lacking = drawing.nodes.iter().filter(|node| node.lacks == ["D"]);
    let used = drawing.edges.iter().filter(|edge| edge.in_view);
    (lacking.count(), used.count())
}

#[test]
fn forty_objects_are_all_drawn_and_marked() {
    let drawing = drawn(&chains(13, 3, "with derived a.a.(a: D)"));
    assert_eq!(shown(&drawing), (40, None));
    assert_eq!(marked(&drawing), (13, 39));
    // Also those that no path touches.
    let text = chains(12, 3, "with derived a.a.(a: D)") + "Constant x Constant y Constant z";
    assert_eq!(shown(&drawn(&text)), (40, None));
}

#[test]
fn of_more_objects_those_are_drawn_that_paths_touch() {
    let text = chains(13, 3, "with derived a.a.(a: D)") + "axiom C1 needs b";
    let drawing = drawn(&text);
    let note = "Not drawn: 1 of 41 objects, touched by no path of the query or the view.";
    assert_eq!(shown(&drawing), (40, Some(note)));
    assert_eq!(marked(&drawing), (13, 39));
    // A step that is missed would touch what a constant names.
    let text = chains(12, 3, "with derived a.a.(a: D) (b: {x})");
    let drawing = drawn(&(text + "Constant x Constant y Constant z Constant w"));
    let note = "Not drawn: 3 of 41 objects, touched by no path of the query or the view.";
    assert_eq!(shown(&drawing), (1 + 12 * 3 + 1, Some(note)));
    let landing = drawing.nodes.iter().position(|node| node.called == ["{x}"]);
    let missed = drawing.edges.iter().find(|edge| edge.missing);
    assert_eq!(missed.map(|edge| edge.to), landing);
}

#[test]
fn of_more_objects_on_the_paths_three_are_drawn_at_a_place() {
    let drawing = drawn(&chains(10, 4, "with derived a.a.a.(a: D)"));
    let why = "touched by no path, or with 3 others drawn at the same place.";
    let note = format!("Not drawn: 21 of 41 objects, {why}");
    // The object, its ten values, and what follows after three of them.
    assert_eq!(shown(&drawing), (1 + 10 + 3 * 3, Some(note.as_str())));
    assert_eq!(marked(&drawing), (3, 3 * 4));
    // The first chain has a D at its end, but neither it nor any other has a B.
    let nested = "with derived a.(a: [isA B with derived a.(a: D)])";
    let text = chains(12, 4, nested)
        + "Class B end Class N1 end Class N2 end
           axiom C0 types a: N1 axiom N1 types a: N2 axiom N2 types a: D";
    let drawing = drawn(&text);
    let note = format!("Not drawn: 29 of 49 objects, {why}");
    // Of three objects after the values two have no D in the end.
    assert_eq!(shown(&drawing), (1 + 12 + 3 + 2 * 2, Some(note.as_str())));
    let lacking = drawing.nodes.iter().filter(|node| node.lacks == ["B"]);
    assert_eq!(lacking.count(), 3);
}

#[test]
fn what_is_missed_is_drawn_only_at_objects_that_are_drawn() {
    // The first three chains have a value of b at their ends, and no other has.
    let text = chains(10, 4, "with derived a.a.a.(a: [isA B with derived b])")
        + "Class B end Class N1 end Class N2 end Class N end axiom C0 isA B
           axiom C0 types a: N1 axiom C1 types a: N1 axiom C2 types a: N1
           axiom N1 types a: N2 axiom N2 types a: N axiom N needs b";
    let drawing = drawn(&text);
    assert_eq!(shown(&drawing).0, 1 + 10 + 3 * 3);
    assert_eq!(drawing.nodes.len(), 1 + 10 + 3 * 3);
}

/// What is said of an object that has a value of `a` in each of two classes, the first of
/// which has a value of `b`, and a view with this landing of `a`.
fn landing_fails(landing: &str) -> Vec<String> {
    let text = format!(
        "Class C end Class D end Class E end Attribute a end Attribute b end Constant c\n\
         QueryClass Q with derived (a: C).(b: E) (a: D) end\n\
         View V with derived\n(a: {landing}) end"
    );
    let said = asked(&file("n", &text), "Q", "V").text();
    let (_, fails) = said.split_once("fails in V:\n").expect("it fails");
    // The first line is that of the part, which is the same in all.
    let words = |line: &str| line.split_whitespace().collect::<Vec<_>>().join(" ");
    fails.lines().skip(1).map(words).collect()
}

#[test]
fn objects_at_one_place_are_told_together() {
    let lines = [
        "n:4:5 E c1 and d2 are not in E",
        "n:4:9 {c} {c} is object4, not c1 or d2",
    ];
    assert_eq!(landing_fails("E & {c}"), lines);
    let lines = ["n:4:19 (b^: C & D) c1 and d2 are no values of b"];
    assert_eq!(landing_fails("[with derived (b^: C & D)]"), lines);
    let apart = "from each of c1 and d2 the two sides lead to different objects";
    let lines = [format!("n:4:5 a^ = this {apart}")];
    let equation = "[with derived l: a^ where l = this]";
    assert_eq!(landing_fails(equation), lines);
}

#[test]
fn each_object_is_told_where_it_fails() {
    let lines = ["n:4:10 C d2 is not in C", "n:4:13 D c1 is not in D"];
    assert_eq!(landing_fails("[isA C, D]"), lines);
    let lines = [
        "n:4:19 b d2 has no value of b",
        "n:4:21 b e3 has no value of b",
    ];
    assert_eq!(landing_fails("[with derived b.b]"), lines);
    let lines = [
        "n:4:19 (b: D) d2 has no value of b",
        "n:4:19 (b: D) b of c1: e3, not in D",
    ];
    assert_eq!(landing_fails("[with derived (b: D)]"), lines);
    let lines = [
        "n:4:28 b d2 has no value of b",
        "n:4:5 a^ = b from c1 one side leads to object0, the other to e3",
    ];
    let equation = "[with derived l: a^ m: b where l = m]";
    assert_eq!(landing_fails(equation), lines);
}
