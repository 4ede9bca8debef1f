//! What is said of an answer, word for word.

mod explained;

use explained::drawn::told;
use explained::value::Value;
use explained::{asked, file};
use std::collections::BTreeSet;

const ROWING: &str = include_str!("../../example/rowing.bik");
const PATIENT: &str = include_str!("../../example/patient.bik");
const STROKE: &str = include_str!("../../example/stroke.bik");

#[test]
fn rowers_are_recorded() {
    let answer = asked(&file("rowing.bik", ROWING), "Rowers", "Recorded");
    assert!(answer.is_held());
    let text = "\
HELD  every object of Rowers is in Recorded
  from 6 of 10 axioms; without any one of them it is OPEN
    rowing.bik:4:50   Rower needs wears
    rowing.bik:5:22   wears relates Person to Strap
    rowing.bik:7:39   Strap needs records
    rowing.bik:8:24   records relates Strap to Beat
    rowing.bik:11:46  Beat needs during
    rowing.bik:12:23  during relates Beat to Session
  of Rowers needed: isA Rower; not needed: (attends: Session)
  The other way OPEN: filter the list by Rowers.";
    assert_eq!(answer.text(), text);
    // A state of its own: the view's session need not be the one that is attended.
    let text = "\
rower0 Person Rower
session1 Session
strap2 Strap
beat3 Beat
session4 Session
0 -wears-> 2 in view
2 -records-> 3 in view
3 -during-> 4 in view
0 -attends-> 1 in query
";
    assert_eq!(told(&answer.drawing(&mut |_| {}).expect("a drawing")), text);
}

#[test]
fn the_recorded_need_not_be_rowers() {
    let answer = asked(&file("rowing.bik", ROWING), "Recorded", "Rowers");
    assert!(!answer.is_held());
    let text = "\
OPEN  some object of Recorded need not be in Rowers
State counterexample      -- legal; person0 is in Recorded and not in Rowers
  person0 in Person with wears: strap1
  strap1 in Strap with records: beat2
  beat2 in Beat with during: session3
  session3 in Session
end counterexample
person0 fails in Rowers:
  NO   rowing.bik:15:23  isA Rower
  NO   rowing.bik:16:11  (attends: Session)  person0 has no value of attends";
    assert_eq!(answer.text(), text);
    let drawn = answer.drawing(&mut |_| {}).expect("a drawing");
    let text = "\
person0 Person lacks Rower
strap1 Strap
beat2 Beat
session3 Session
missing Session
0 -wears-> 1 in query
1 -records-> 2 in query
2 -during-> 3 in query
0 -attends-> 4 missing
";
    assert_eq!(told(&drawn), text);
}

#[test]
fn the_patients_of_the_report() {
    let patients = file("patient.bik", PATIENT);
    let held = "\
HELD  every object of QueryPatient is in ViewPatient
  from 4 of 10 axioms, of which none can be left out; others would do as well
    patient.bik:3:19  Patient isA Person
    patient.bik:13:5  Person types name: String
    patient.bik:13:5  Person needs name
    patient.bik:19:5  Doctor types skilled_in: Disease
  of QueryPatient needed: isA Patient; (consults: Female) = suffers.(specialist: Doctor); not needed: isA Male
  The other way OPEN: filter the list by QueryPatient.";
    assert_eq!(asked(&patients, "QueryPatient", "ViewPatient").text(), held);
    let open = "\
OPEN  some object of ViewPatient need not be in QueryPatient
State counterexample      -- legal; patient0 is in ViewPatient and not in QueryPatient
  patient0 in Patient, Person with consults: doctor2; suffers: disease3; name: string1
  string1 in String
  doctor2 in Person, Doctor with name: string4; skilled_in: disease3
  disease3 in Disease, Topic
  string4 in String
end counterexample
patient0 fails in QueryPatient:
  NO   patient.bik:38:29  isA Male
  yes  patient.bik:38:35  isA Patient
  NO   patient.bik:43:5   (consults: Female) = suffers.(specialist: Doctor)
       patient.bik:40:9   (consults: Female)  consults of patient0: doctor2, not in Female";
    let answer = asked(&patients, "ViewPatient", "QueryPatient");
    assert_eq!(answer.text(), open);
    let drawn = told(&answer.drawing(&mut |_| {}).expect("a drawing"));
    assert!(drawn.contains("doctor2 Person Doctor lacks Female\n"));
    assert!(drawn.contains("0 -consults-> 2 in query in view\n"));
}

#[test]
fn marks_are_told_by_name() {
    let club = file("stroke.bik", STROKE);
    let answer = asked(&club, "StrokeBeats", "AttendedBeats");
    let open = "\
OPEN  some object of StrokeBeats need not be in AttendedBeats
State counterexample for StrokeBeats      -- legal; beat0 is in StrokeBeats and not in AttendedBeats
  beat0 in Beat with during: session2
  strap1 in Strap with records: beat0
  session2 in Session with stroked_by: rower3
  rower3 in Person, Rower with wears: strap1
  ?stroke is rower3
end counterexample
beat0 fails in AttendedBeats:
  NO   stroke.bik:29:5   (during: Session).(attendant: Person)
       stroke.bik:29:23  (attendant: Person)  session2 has no value of attendant";
    assert_eq!(answer.text(), open);
    let text = "\
beat0 Beat
strap1 Strap
session2 Session
rower3 Person Rower ?stroke
missing Person
3 -wears-> 1 in query
1 -records-> 0 in query
0 -during-> 2 in query in view
2 -stroked_by-> 3 in query
4 -attends-> 2 missing
";
    assert_eq!(told(&answer.drawing(&mut |_| {}).expect("a drawing")), text);
    let held = asked(&club, "StrokeBeats", "RowerBeats").text();
    let last = "The other way cannot be asked, since StrokeBeats has marks and a view has none: filter the list by StrokeBeats.";
    assert!(held.ends_with(last));
    assert!(held.contains("from 1 of 11 axioms; without this one it is OPEN\n"));
}

#[test]
fn an_empty_query_is_told_and_not_drawn() {
    let text =
        "Constant one Constant two Class A end View V isA A end QueryClass Q isA {one}, {two} end";
    let answer = asked(&file("n", text), "Q", "V");
    let said = "\
HELD  every object of Q is in V
  Q is empty in every legal state: any view holds it
  from no axiom
  of Q all is needed: isA {one}; isA {two}
  The other way OPEN: filter the list by Q.";
    assert_eq!(answer.text(), said);
    assert_eq!(
        undrawn(&answer),
        "There is nothing to draw: no legal state has an object of Q."
    );
    let json = Value::read(&answer.json()).expect("JSON");
    assert!(json.get("empty").truth() && json.get("filter").truth());
}

#[test]
fn without_room_for_a_further_class_or_attribute_emptiness_is_not_told() {
    let classes: String = (0..24).map(|n| format!("Class C{n} end ")).collect();
    let query = "QueryClass Q isA C0, C1 end View V isA C1 end";
    let answer = asked(&file("n", &format!("{classes}{query}")), "Q", "V");
    assert_eq!(
        answer
            .drawing(&mut |_| {})
            .expect("by an attribute")
            .nodes
            .len(),
        1
    );
    let attributes: String = (0..8).map(|n| format!("Attribute a{n} end ")).collect();
    let answer = asked(
        &file("n", &format!("{classes}{attributes}{query}")),
        "Q",
        "V",
    );
    let json = Value::read(&answer.json()).expect("JSON");
    assert_eq!(json.get("empty"), &Value::Null);
    assert!(!answer.text().contains("empty"));
    let why = undrawn(&answer);
    assert!(why.starts_with("There is nothing to draw: "), "{why}");
}

/// Why nothing is drawn.
fn undrawn(answer: &bik::explain::Explanation) -> String {
    let drawing = answer.drawing(&mut |_| {}).expect("a drawing");
    assert!(drawing.nodes.is_empty());
    let picture = bik::picture::svg(&drawing);
    assert!(picture.contains("There is nothing to draw"));
    drawing.note.expect("a note")
}

#[test]
fn a_query_that_is_the_view_needs_no_filter() {
    let text = "Class A end View V isA A end QueryClass Q isA A, Object end";
    let answer = asked(&file("n", text), "Q", "V");
    let said = "\
HELD  every object of Q is in V
  from no axiom
  of Q needed: isA A; not needed: isA Object
  The other way HELD: the list is the answer itself.";
    assert_eq!(answer.text(), said);
    let steps = "a.a.a.a.a.a.a";
    let text = format!("Attribute a end View V end QueryClass Q with derived {steps} end");
    let said = asked(&file("n", &text), "Q", "V").text();
    assert!(said.contains("of Q nothing is needed: a.a.a"), "{said}");
    assert!(said.ends_with("since Q has 7 steps and a view at most 6: filter the list by Q."));
}

#[test]
fn a_query_of_many_steps_is_refused_as_a_view() {
    let text = "Attribute a end QueryClass Q with derived a.a.a.a.a.a.a end QueryClass V end";
    let club = file("n", text);
    let (query, view) = (
        club.query("V").expect("a query"),
        club.query("Q").expect("a query"),
    );
    let fault = bik::explain::explain(&club, query, view, &mut |_| {}).expect_err("too many steps");
    assert!(fault.to_string().starts_with("n:1:28: "), "{fault}");
}

#[test]
fn the_page_has_the_keys_of_the_json_and_no_others() {
    let page = include_str!("../../docs/TEXT.md");
    let (_, keys) = page.split_once("| key | of | what |").expect("the table");
    let (keys, _) = keys.split_once("## Faults").expect("what follows it");
    let quoted = keys.split('`').skip(1).step_by(2);
    let told: BTreeSet<&str> = quoted.filter(|text| !text.starts_with('"')).collect();
    let club = file("rowing.bik", ROWING);
    let answers = [("Rowers", "Recorded"), ("Recorded", "Rowers")];
    let answers = answers.map(|(query, view)| asked(&club, query, view).json());
    let answers = answers.map(|json| Value::read(&json).expect("JSON"));
    let keys: BTreeSet<&str> = answers.iter().flat_map(Value::keys).collect();
    assert_eq!(told, keys);
}

#[test]
fn json_is_well_formed_whatever_a_file_is_called() {
    let name = "a \"b\" \\ c\n\u{1}é.bik";
    let rowing = file(name, ROWING);
    for (query, view) in [("Rowers", "Recorded"), ("Recorded", "Rowers")] {
        let json = Value::read(&asked(&rowing, query, view).json()).expect("JSON");
        assert_eq!(json.get("query").text(), query);
        let part = &json.get("parts").list()[0];
        assert_eq!(part.get("place").get("file").text(), name);
    }
}
