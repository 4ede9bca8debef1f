//! Texts with names: what is printed says the same, by the same names.

use super::{reading, records};
use bik::print;
use std::fs;
use std::path::Path;

/// Holds that the printed text has the same records, and gives it.
fn printed(text: &str) -> String {
    let read = reading(text);
    let printed = print::file(&read);
    let again = reading(&printed);
    assert_eq!(records(&again), records(&read), "{printed}");
    assert_eq!(print::file(&again), printed);
    printed
}

#[test]
fn examples() {
    for name in ["rowing", "patient", "stroke"] {
        let folder = Path::new(env!("CARGO_MANIFEST_DIR")).join("../example");
        let text = fs::read_to_string(folder.join(format!("{name}.bik")));
        printed(&text.expect("the example"));
    }
}

const CLUB: &str = "
Class Person end Class Rower isA Person with attribute, necessary, single wears: Strap end
Class Strap end Constant Strap7 Constant Strap8 loose
Attribute wears with inverse: wearer end
Attribute attends with domain: Person range: Person end
";

/// The canonical text of each thing there is.
#[test]
fn the_whole_text() {
    let text = CLUB.to_string()
        + "
View Wearers with derived (wears: Strap) end
QueryClass Q isA Rower, Wearers, {Strap7}, ?x, Object with derived
  l: wearer.attends^.(attends^: Person & ?y) wears.wears this l2: wears
  where l2 = this l = this this = this end
QueryClass All end
State s for Q
  p in Rower, Person, Rower with wears: s, p, s; attends: p
  ?y is p Strap8 is s Strap7 is s
  s o with wears: o ?x is s
end
State none for All Strap7 Strap8 is Strap7 Strap7 is Strap7 end
";
    let expected = "\
Class Person end Person
Class Rower end Rower
Class Strap end Strap
Attribute wears with inverse: wearer end wears
Attribute attends end attends
Constant Strap7
Constant Strap8 loose

axiom Rower isA Person
axiom Rower types wears: Strap
axiom Rower needs wears
axiom Rower single wears
axiom attends relates Person to Person

View Wearers with
  derived
    (wears: Strap)
end Wearers

QueryClass Q isA Rower, [with derived (wears: Strap)], {Strap7}, ?x, Object with
  derived
    wears.wears
    this
    l1: wears
    l2: wearer.attends^.(attends^: Person & ?y)
  where
    l1 = this
    l2 = this
    this = this
end Q

QueryClass All isA Object end All

State s for Q
  p in Person, Rower with wears: p, s; attends: p
  s
  o with wears: o
  Strap7 is s
  Strap8 is s
  ?x is s
  ?y is p
end s

State none
  Strap7
  Strap7 is Strap7
  Strap8 is Strap7
end none
";
    assert_eq!(printed(&text), expected);
}

/// Where paths change places when they are printed, marks may not keep their names:
/// these are numbered in the order of the text.
#[test]
fn marks_keep_their_numbers() {
    let query = |body: &str| {
        let state = "State s for Q o Strap7 is o Strap8 is o ?x is o ?y is o end";
        printed(&format!("{CLUB} QueryClass Q {body} end {state}"))
    };
    let kept = query("with derived (wears: ?x) (wears: ?y)");
    assert!(kept.contains("?x is o\n  ?y is o"), "{kept}");
    let moved = query("with derived l: (wears: ?x) (wears: ?y) where l = this");
    assert!(
        moved.contains("(wears: ?1)\n    l1: (wears: ?0)"),
        "{moved}"
    );
    assert!(moved.contains("State s for Q\n") && moved.contains("?0 is o\n  ?1 is o"));
    let swapped = query("with derived l: (wears: ?x) k: (wears: ?y) where k = l");
    assert!(
        swapped.contains("l1: (wears: ?1)\n    l2: (wears: ?0)"),
        "{swapped}"
    );
    let mixed = query("isA ?0, ?3 with derived (wears: ?x) (wears: ?y)");
    assert!(
        mixed.contains("isA ?0, ?3 with") && mixed.contains("(wears: ?x)"),
        "{mixed}"
    );
}

/// Brackets stand where the parts have another order than a body's.
#[test]
fn brackets() {
    let body = |body: &str| {
        let text = printed(&format!("{CLUB} QueryClass Q {body} end"));
        let (_, query) = text.split_once("QueryClass Q ").expect("the query");
        query.split_whitespace().collect::<Vec<_>>().join(" ")
    };
    for (given, expected) in [
        (
            "isA [isA Rower, Strap], Person",
            "isA [isA Rower, Strap], Person",
        ),
        (
            "isA Person, [isA Rower, Strap]",
            "isA Person, [isA Rower, Strap]",
        ),
        (
            "isA [with derived wears], Person",
            "isA [with derived wears], Person",
        ),
        (
            "isA Person, [with derived wears]",
            "isA Person with derived wears",
        ),
        (
            "isA [with derived l: wears where l = this] with derived wears",
            "isA [with derived l1: wears where l1 = this] with derived wears",
        ),
        (
            "isA [with derived wears], [with where this = this]",
            "with derived wears where this = this",
        ),
        (
            "with derived (wears: [isA Rower with derived attends] & [])",
            "with derived (wears: [isA Rower with derived attends] & Object)",
        ),
        (
            "with derived (wears: Object) (attends: [])",
            "with derived wears attends",
        ),
        (
            "with derived (wears: [isA Rower, Strap])",
            "with derived (wears: Rower & Strap)",
        ),
    ] {
        assert_eq!(body(given), format!("{expected} end Q"));
    }
}

#[test]
fn parts_and_axioms() {
    let text = CLUB.to_string()
        + "QueryClass Q isA Rower, {Strap7}, ?x, [isA Rower, Strap with derived wears] with
           derived attends.(wearer: ?x) l: wears k: attends^ where l = k this = this end";
    let file = reading(&text);
    let query = file.query("Q").expect("the query");
    let parts = query.concept.parts().iter();
    let parts = parts.map(|part| print::part(&file.names, &query.marks, part));
    let expected = [
        "isA Rower",
        "isA {Strap7}",
        "isA ?x",
        "isA [isA Rower, Strap with derived wears]",
        "attends.(wearer: ?x)",
        "wears = attends^",
        "this = this",
    ];
    assert_eq!(parts.collect::<Vec<_>>(), expected);
    let axioms = file
        .axioms
        .iter()
        .map(|stated| print::axiom(&file.names, stated.axiom));
    let expected = [
        "Rower isA Person",
        "Rower types wears: Strap",
        "Rower needs wears",
        "Rower single wears",
        "attends relates Person to Person",
    ];
    assert_eq!(axioms.collect::<Vec<_>>(), expected);
}
