//! Where an object fails in a view, and how the objects are called.

mod explained;

use explained::drawn::told;
use explained::{asked, file};

const NAMES: &str = "\
Class Upper end Class Unit2 isA Upper end
Attribute part end Attribute owns with inverse: owner end
Constant left Constant right
QueryClass Unit isA Unit2 with derived (part: Upper) end
QueryClass Part with derived part end
View Left isA Upper, {left} end
View Inner with derived (part: Unit2 & {left}) end
View Asked
";

/// What is said of the object of `Unit`, which is called `unit2_0`, has `upper1` as its
/// part and is neither of the constants, and a view with this body; and the drawing.
fn unit_fails(body: &str) -> (String, String) {
    let text = format!("{NAMES}{body} end");
    let answer = asked(&file("n", &text), "Unit", "Asked");
    let said = answer.text();
    let (_, fails) = said
        .split_once("unit2_0 fails in Asked:\n")
        .expect("it fails");
    (
        fails.to_string(),
        told(&answer.drawing(&mut |_| {}).expect("a drawing")),
    )
}

/// That so much is said, line by line, and that the drawing has this line.
fn assert_fails(body: &str, lines: &[&str], drawn: &str) {
    let (said, drawing) = unit_fails(body);
    assert_eq!(said.lines().collect::<Vec<_>>(), lines);
    assert!(drawing.lines().any(|line| line == drawn), "{drawing}");
}

#[test]
fn what_fails_is_told() {
    let not_left = ["  NO   n:9:5  isA {left}  {left} is object2, not unit2_0"];
    assert_fails("isA {left}", &not_left, "unit2_0 Upper Unit2 lacks {left}");
    let no_part = ["  NO   n:9:14  part^  unit2_0 is no value of part"];
    assert_fails("with derived part^", &no_part, "4 -part-> 0 missing");
    let no_owner = ["  NO   n:9:14  (owner: Upper)  unit2_0 has no value of owner"];
    assert_fails("with derived (owner: Upper)", &no_owner, "missing Upper");
    assert_fails(
        "with derived (owner: Upper)",
        &no_owner,
        "4 -owns-> 0 missing",
    );
    // A constant has an object already.
    let no_left = ["  NO   n:9:14  (owns: {left})  unit2_0 has no value of owns"];
    assert_fails(
        "with derived (owns: {left})",
        &no_left,
        "0 -owns-> 2 missing",
    );
}

#[test]
fn the_step_that_fails_is_told() {
    let second = [
        "  NO   n:9:14  part.part",
        "       n:9:19  part  upper1 has no value of part",
    ];
    assert_fails("with derived part.part", &second, "1 -part-> 4 missing");
    assert_fails(
        "with derived part.part",
        &second,
        "0 -part-> 1 in query in view",
    );
    let landing = ["  NO   n:9:14  (part: Unit2).part  part of unit2_0: upper1, not in Unit2"];
    assert_fails(
        "with derived (part: Unit2).part",
        &landing,
        "upper1 Upper lacks Unit2",
    );
    let nested = [
        "  NO   n:9:14  (part: Unit2 & [with derived owner])  part of unit2_0: upper1, not in Unit2 & [owner]",
        "       n:9:21  Unit2                                 upper1 is not in Unit2",
        "       n:9:43  owner                                 upper1 has no value of owner",
    ];
    let body = "with derived (part: Unit2 & [with derived owner])";
    assert_fails(body, &nested, "4 -owns-> 1 missing");
    assert_fails(body, &nested, "upper1 Upper lacks Unit2");
}

#[test]
fn equations_fail_in_a_path_or_at_their_ends() {
    let apart = ["  NO   n:9:28  part = this  one side leads to upper1, the other to unit2_0"];
    let body = "with derived l: part where l = this";
    assert_fails(body, &apart, "upper1 Upper lacks = unit2_0");
    let turned = ["  NO   n:9:28  this = part  one side leads to unit2_0, the other to upper1"];
    let body = "with derived l: part where this = l";
    assert_fails(body, &turned, "upper1 Upper lacks = unit2_0");
    let path = [
        "  NO   n:9:41  part = owns.part",
        "       n:9:25  owns  unit2_0 has no value of owns",
    ];
    let body = "with derived l: part m: owns.part where l = m";
    assert_fails(body, &path, "0 -owns-> 4 missing");
}

#[test]
fn a_view_that_is_named_is_told_by_its_name() {
    let lines = [
        "  yes  n:9:5   isA Unit2",
        "  NO   n:9:12  isA Left                {left} is object2, not unit2_0",
        "  NO   n:9:30  (part: Upper & {left})  part of unit2_0: upper1, not in Left",
        "       n:9:37  {left}                  {left} is object2, not upper1",
    ];
    let body = "isA Unit2, Left with derived (part: Left)";
    assert_fails(body, &lines, "upper1 Upper lacks {left}");
    // All of it stands where the name does, and only the whole is called so.
    let lines = [
        "  NO   n:9:5  isA Inner  part of unit2_0: upper1, not in Unit2 & {left}",
        "       n:9:5  Unit2      upper1 is not in Unit2",
        "       n:9:5  {left}     {left} is object2, not upper1",
    ];
    assert_fails("isA Inner", &lines, "upper1 Upper lacks Unit2 lacks {left}");
}

#[test]
fn objects_are_named_after_their_classes() {
    let text = NAMES.replace("Asked", "counterexample") + "isA Unit end";
    let said = asked(&file("n", &text), "Part", "counterexample").text();
    let state = "\
State counterexample2      -- legal; object0 is in Part and not in counterexample
  object0 with part: object1
  object1
";
    assert!(said.contains(state), "{said}");
    let said = asked(
        &file("n", &(NAMES.to_string() + "isA {left} end")),
        "Unit",
        "Asked",
    )
    .text();
    let state = "  unit2_0 in Upper, Unit2 with part: upper1\n  upper1 in Upper\n";
    assert!(said.contains(state), "{said}");
    // The first letter of this name is two in lower case, of which one is no letter.
    let text = "Class \u{130} end Class Ärzte end View Both isA \u{130}, Ärzte end View None isA \u{130} with derived this end Class Z isA Ärzte end View C isA Z end Attribute a end View D isA Both with derived a end";
    let letters = file("n", text);
    let said = asked(&letters, "None", "C").text();
    assert!(said.contains("\u{130}0 in \u{130}\n"), "{said}");
    let said = asked(&letters, "C", "D").text();
    assert!(said.contains("z0 in Ärzte, Z\n"), "{said}");
    let text = "Class Person end Class person0 end View Q isA Person end View V isA person0 end";
    let said = asked(&file("n", text), "Q", "V").text();
    assert!(said.contains("\n  person_0 in Person\n"), "{said}");
    // Neither of two classes that include each other is the more special one.
    let text = "Class B isA A end Class A isA B end View Q isA A end View V isA {c} end Constant c";
    let said = asked(&file("n", text), "Q", "V").text();
    assert!(said.contains("\n  b0 in B, A\n"), "{said}");
}
