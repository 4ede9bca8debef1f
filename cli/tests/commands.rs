//! What the commands answer that ask about a file, by the built program.

mod program;

use program::{bik, examples, fed, CLUB};
use std::fs;
use std::path::{Path, PathBuf};

#[test]
fn decide_says_held_or_open() {
    let held = "HELD  every object of Rowers is in Recorded\n";
    bik(&["decide", "rowing.bik", "Rowers", "Recorded"]).says(held, 0);
    let open = "OPEN  some object of Recorded need not be in Rowers\n";
    bik(&["decide", "rowing.bik", "Recorded", "Rowers"]).says(open, 1);
    let held = "HELD  every object of StrokeBeats is in RowerBeats\n";
    bik(&["decide", "stroke.bik", "StrokeBeats", "RowerBeats"]).says(held, 0);
    let open = "OPEN  some object of StrokeBeats need not be in AttendedBeats\n";
    bik(&["decide", "stroke.bik", "StrokeBeats", "AttendedBeats"]).says(open, 1);
    let held = "HELD  every object of QueryPatient is in ViewPatient\n";
    bik(&["decide", "patient.bik", "QueryPatient", "ViewPatient"]).says(held, 0);
}

#[test]
fn a_class_is_a_query_and_a_view() {
    let held = "HELD  every object of Rower is in Person\n";
    bik(&["decide", "rowing.bik", "Rower", "Person"]).says(held, 0);
    let open = "OPEN  some object of Object need not be in Person\n";
    bik(&["decide", "rowing.bik", "Object", "Person"]).says(open, 1);
    let held = "HELD  every object of Person is in Object\n";
    bik(&["decide", "rowing.bik", "Person", "Object"]).says(held, 0);
}

#[test]
fn explain_begins_with_the_verdict_and_writes_its_files() {
    let folder = folder("explained");
    let (svg, dot) = (folder.join("a.svg"), folder.join("a.dot"));
    let files = [svg.to_str().expect("text"), dot.to_str().expect("text")];
    let asked = ["explain", "rowing.bik", "Recorded", "Rowers"];
    let plain = bik(&asked);
    let drawn = bik(&[&asked[..], &["--svg", files[0], "--dot", files[1]]].concat());
    assert_eq!((plain.status, drawn.status), (1, 1));
    let verdict = "OPEN  some object of Recorded need not be in Rowers\n";
    assert!(plain.text().starts_with(verdict), "{}", plain.text());
    assert_eq!(plain.bytes, drawn.bytes);
    assert!(fs::read_to_string(&svg)
        .expect("a picture")
        .contains("<svg"));
    assert!(fs::read_to_string(&dot)
        .expect("a graph")
        .contains("digraph"));
    assert!(drawn.text().ends_with('\n') && !drawn.text().ends_with("\n\n"));
    let held = bik(&["explain", "rowing.bik", "Rowers", "Recorded"]);
    let verdict = "HELD  every object of Rowers is in Recorded\n";
    assert!(
        held.text().starts_with(verdict) && held.status == 0,
        "{held:?}"
    );
    let json = bik(&["explain", "rowing.bik", "Rowers", "Recorded", "--json"]);
    assert!(json.text().starts_with('{') && json.text().ends_with("}\n"));
    assert_eq!((json.faults.as_str(), json.status), ("", 0));
    fs::remove_dir_all(folder).expect("the folder is ours");
}

/// A state that was printed is input again, and shows what it is printed for.
#[test]
fn the_state_of_an_open_answer_is_judged_again() {
    let explained = bik(&["explain", "rowing.bik", "Recorded", "Rowers"]);
    let (_, below) = explained.text().split_once("State ").expect("a state");
    let (state, _) = below.split_once("\nend").expect("its end");
    let club = fs::read_to_string(examples().join("rowing.bik")).expect("the club");
    let with_state = format!("{club}\nState {state}\nend");
    fed(&with_state, &["legal", "-", "counterexample"]).says("legal\n", 0);
    fed(&with_state, &["select", "-", "Recorded", "counterexample"]).says("person0\n", 0);
    fed(&with_state, &["select", "-", "Rowers", "counterexample"]).says("", 0);
    fed(
        &with_state,
        &["links", "-", "Recorded", "counterexample", "wears"],
    )
    .says("1\n", 0);
}

#[test]
fn serve_takes_the_first_view_that_holds() {
    let first = "Persons  filter  every object of Rowers is there, and maybe others\n";
    bik(&["serve", "rowing.bik", "Rowers"]).says(first, 0);
    let second = "AttendedBeats  equal  every object of AttendedBeats is there, and no others\n";
    bik(&["serve", "stroke.bik", "AttendedBeats"]).says(second, 0);
    let equal = "Persons  equal  every object of Person is there, and no others\n";
    bik(&["serve", "rowing.bik", "Person"]).says(equal, 0);
    // With a mark it cannot stand as a view, so nothing is said of the other way.
    let filter = "Known  filter  every object of ByWho is there, and maybe others\n";
    fed(CLUB, &["serve", "-", "ByWho"]).says(filter, 0);
    let none = "no view holds Acquainted: read the whole store\n";
    fed(CLUB, &["serve", "-", "Acquainted"]).says(none, 1);
}

#[test]
fn order_puts_narrow_views_first() {
    let order = "\
Crew
Recorded = Wearers
Persons

Persons   held by no other
Recorded  held by Persons, Wearers
Crew      held by Persons, Recorded, Wearers
Wearers   held by Persons, Recorded
";
    bik(&["order", "rowing.bik"]).says(order, 0);
    let order = "\
Wearers = Strapped
Persons
Known

Persons   held by no other
Wearers   held by Persons, Strapped
Strapped  held by Persons, Wearers
Known     held by no other
";
    fed(CLUB, &["order", "-"]).says(order, 0);
}

#[test]
fn select_names_the_objects() {
    fed(CLUB, &["select", "-", "Rowers", "good"]).says("ann\n", 0);
    fed(CLUB, &["select", "-", "Known", "good"]).says("ann\nbob\ncarl\n", 0);
    fed(CLUB, &["select", "-", "Object", "good"]).says("ann\nbob\ncarl\ns1\n", 0);
    fed(CLUB, &["select", "-", "Rower", "asked"]).says("", 0);
}

#[test]
fn legal_names_the_first_broken_axiom() {
    fed(CLUB, &["legal", "-", "good"]).says("legal\n", 0);
    fed(CLUB, &["legal", "-", "asked"]).says("legal\n", 0);
    let broken = "illegal: breaks -:2:50 Rower needs wears\n";
    fed(CLUB, &["legal", "-", "bad"]).says(broken, 1);
}

#[test]
fn links_are_counted() {
    fed(CLUB, &["links", "-", "Person", "good", "knows"]).says("3\n", 0);
    fed(CLUB, &["links", "-", "Rowers", "good", "knows"]).says("2\n", 0);
    fed(CLUB, &["links", "-", "Person", "asked", "knows"]).says("2\n", 0);
    fed(CLUB, &["links", "-", "Strap", "good", "wears"]).says("0\n", 0);
}

#[test]
fn check_says_what_is_used_of_each_limit() {
    let used = "\
classes      3 of 24  Person, Rower, Strap
attributes   2 of 8   wears (inverse wearer), knows
constants    2 of 4   Ann, Bea (loose)
axioms       4 of 96
views        4 of 16  Persons, Wearers, Strapped, Known

                       tokens    steps     marks   classes  attributes
QueryClass Acquainted   6 of 64   2 of 16  1 of 4           knows
QueryClass Rowers       1 of 64   0 of 16  0 of 4  Rower
QueryClass ByWho        4 of 64   1 of 16  1 of 4           knows
View Persons            1 of 64   0 of 6           Person
View Wearers            4 of 64   1 of 6           Strap    wears
View Strapped           6 of 64   1 of 6           Person   wears
View Known              4 of 64   1 of 6                    knows

             objects     facts
State good     4 of 480     11 of 15384
State bad      1 of 480      4 of 15384
State asked    2 of 480      7 of 15384
";
    fed(CLUB, &["check", "-"]).says(used, 0);
    let nothing = "\
classes      0 of 24
attributes   0 of 8
constants    0 of 4
axioms       0 of 96
views        0 of 16
";
    fed("", &["check", "-"]).says(nothing, 0);
}

/// An empty folder for the files of one test.
fn folder(name: &str) -> PathBuf {
    let folder = Path::new(env!("CARGO_TARGET_TMPDIR")).join(name);
    let _ = fs::remove_dir_all(&folder);
    fs::create_dir_all(&folder).expect("a folder of our own");
    folder
}
