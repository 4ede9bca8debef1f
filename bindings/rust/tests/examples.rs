//! What the examples print.

#[allow(dead_code)]
#[path = "../examples/club.rs"]
mod club;
#[allow(dead_code)]
#[path = "../examples/store.rs"]
mod store;

use bikuvoa::{Decision, Query, View};

#[test]
fn the_rowers_may_be_read_from_the_list() {
    let club = club::club().expect("a schema");
    let decision = club.decide(&club.rowers, &club.recorded);
    assert_eq!(decision, Ok(Decision::Held));
}

#[test]
fn the_list_may_not_be_read_from_the_rowers() {
    let club = club::club().expect("a schema");
    let decision = club.decide(&club.recorded, &club.rowers);
    let Ok(Decision::Open { state, object }) = decision else {
        panic!("{decision:?}");
    };
    let query = Query::new(&club.schema, &club.recorded).expect("a query");
    let view = View::new(&club.schema, &club.rowers).expect("a view");
    let found = club.schema.counterexample(&query, &view, &state);
    assert!(matches!(found, Ok(Some(_))), "{found:?} in {state:?}");
    let selected = club.schema.select(&query, &state).expect("a selection");
    assert!(selected.contains(&object), "{object:?} of {selected:?}");
}

/// The words of a file in the folder `example`, low byte first.
fn kept(file: &str) -> Vec<u16> {
    let folder = concat!(env!("CARGO_MANIFEST_DIR"), "/../../example");
    let bytes = std::fs::read(format!("{folder}/{file}")).expect("a record");
    let words = bytes.chunks_exact(2);
    words
        .map(|two| u16::from_le_bytes([two[0], two[1]]))
        .collect()
}

#[test]
fn the_club_has_the_records_of_the_example() {
    let club = club::club().expect("a schema");
    let query = Query::new(&club.schema, &club.rowers).expect("a query");
    let view = View::new(&club.schema, &club.recorded).expect("a view");
    assert_eq!(club.schema.words(), kept("schema.bin"));
    assert_eq!(query.words(), kept("query.bin"));
    assert_eq!(view.words(), kept("view.bin"));
}

/// Which state is shown is the library's choice, so its facts are not compared.
#[test]
fn the_club_prints_its_decisions() {
    let lines = club::report().expect("a report");
    let answers = lines.iter().filter(|line| !line.starts_with("  "));
    let verdict = |line: &String| line.split(", object ").next().map(str::to_string);
    let expected = [
        "Rowers in the list of the recorded:",
        "HELD",
        "The recorded in a list of the rowers:",
        "OPEN",
        "Those present, in the list of the recorded:",
        "HELD",
        "Those present, in a list of the rowers:",
        "OPEN",
    ];
    assert_eq!(answers.filter_map(verdict).collect::<Vec<_>>(), expected);
    assert!(lines.iter().any(|line| line.ends_with(" is a Person")));
    // Only the query of those present has a mark, and its object is told last.
    let told = |line: &String| line.starts_with("  mark 0 is ");
    assert_eq!(lines.iter().position(told), Some(lines.len() - 1));
}

#[test]
fn the_store_prints_where_it_reads() {
    let lines = store::report().expect("a report");
    let expected = [
        "views: rowers, wearers, persons",
        "rowers: 0 from rowers",
        "rowers with a strap: 0 from rowers",
        "coxes with a strap: 1 from wearers, filtered",
        "coxes: 1 2 from persons, filtered",
        "straps: 4 5 from the whole store",
    ];
    assert_eq!(lines, expected);
}
