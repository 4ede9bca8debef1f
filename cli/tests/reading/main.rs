//! Texts and the records that come of them.

mod concepts;
mod examples;

use bik::model::{File, QueryClass, StateFrame};
use bik::read::read;
use bik::source::Source;
use bikuvoa::layout::{self, axiom, fact};

fn file_of(text: &str) -> File {
    let source = Source {
        name: "t.bik".to_string(),
        text: text.to_string(),
    };
    read(source).unwrap_or_else(|fault| panic!("{fault}"))
}

fn query<'a>(file: &'a File, name: &str) -> &'a QueryClass {
    file.query(name).expect("a query of the file")
}

fn words(file: &File, name: &str) -> Vec<u16> {
    query(file, name).concept.words()
}

fn state<'a>(file: &'a File, name: &str) -> &'a StateFrame {
    file.state(name).expect("a state of the file")
}

/// Two classes, two attributes, one of them with an inverse name, and two constants.
const DECLARED: &str = "
    Class A end Class B end Attribute p with inverse: q end Attribute r end
    Constant c Constant d loose ";

#[test]
fn axioms_stand_in_the_order_of_the_text() {
    let file = file_of(
        "axiom A types p : B
         Class A isA B, A with attribute, single, necessary p: B r attribute r: A p end A
         axiom p relates B to A
         Attribute p with domain: A range: B end
         axiom A isA B axiom B needs r axiom B single r
         Attribute r with inverse: s end r Class B end",
    );
    let stated = file
        .axioms
        .iter()
        .map(|stated| (stated.axiom.words(), file.source.at(stated.span)));
    let expected = [
        (axiom::typing(0, 0, 1), "A types p : B"),
        (axiom::subclass(0, 1), "B"),
        (axiom::subclass(0, 0), "A"),
        (axiom::typing(0, 0, 1), "p: B"),
        (axiom::necessary(0, 0), "p"),
        (axiom::single(0, 0), "p"),
        (axiom::necessary(0, 1), "r"),
        (axiom::single(0, 1), "r"),
        (axiom::typing(0, 1, 0), "r: A"),
        (axiom::relates(0, 1, 0), "p relates B to A"),
        (axiom::relates(0, 0, 1), "domain: A range: B"),
        (axiom::subclass(0, 1), "A isA B"),
        (axiom::necessary(1, 1), "B needs r"),
        (axiom::single(1, 1), "B single r"),
    ];
    assert_eq!(stated.collect::<Vec<_>>(), expected);
    assert_eq!(file.schema()[..5], [2, 2, 0, 14, 0]);
}

#[test]
fn states() {
    let file = file_of(&format!(
        "State S for Q
           y in B, A with p: x, y; q: z
           d is y  ?m is z  c is x
           x in A with r^: y
           z in A, A
         end S
         {DECLARED} QueryClass Q isA ?m end State Numbered x c is x d is x ?3 is x end State Few
           x2 x1 c is x1 d is x2 end"
    ));
    let (y, x, z) = (0, 1, 2);
    let facts = [
        fact::member(0, y),
        fact::member(0, x),
        fact::member(0, z),
        fact::member(1, y),
        fact::pair(0, y, y),
        fact::pair(0, y, x),
        fact::pair(0, z, y),
        fact::pair(1, y, x),
        fact::name(0, x),
        fact::name(1, y),
        fact::choice(0, z),
    ];
    let told = state(&file, "S");
    assert_eq!(told.words(), layout::state(3, &facts));
    assert_eq!(told.without_choices(), layout::state(3, &facts[..10]));
    assert_eq!(told.query, Some(0));
    let names: Vec<_> = told.objects.iter().map(|name| name.text.as_str()).collect();
    assert_eq!(names, ["y", "x", "z"]);
    let places = told.facts.iter().map(|&(_, span)| file.source.at(span));
    let expected = [
        "B", "A", "x", "y", "z", "d is y", "?m is z", "c is x", "A", "y", "A", "A",
    ];
    assert_eq!(places.collect::<Vec<_>>(), expected);
    let numbered = [fact::name(0, 0), fact::name(1, 0), fact::choice(3, 0)];
    assert_eq!(
        state(&file, "Numbered").words(),
        layout::state(1, &numbered)
    );
    let loose_first = "Constant c loose Constant d State S x c is x d is x end";
    let shared = [fact::name(0, 0), fact::name(1, 0)];
    assert_eq!(
        state(&file_of(loose_first), "S").words(),
        layout::state(1, &shared)
    );
    let few = [fact::name(0, 1), fact::name(1, 0)];
    assert_eq!(state(&file, "Few").words(), layout::state(2, &few));
}

#[test]
fn layout_is_free() {
    assert_eq!(file_of("").schema(), [0, 0, 0, 0, 0]);
    assert_eq!(file_of("-- nothing").schema(), [0, 0, 0, 0, 0]);
    let text = "\u{feff}Class Über_1--comment end\r\nisA Über_1 end\tÜber_1 Constant d loose";
    assert_eq!(file_of(text).schema(), [1, 0, 1, 1, 1, 256, 0]);
    // Each sort of names has a space of its own; only objects are not called as classes.
    let text = "Class C end Attribute n end Constant n State s n in C with n: n n is n end
        QueryClass Q with derived n: (n: C & {n}) where n = this end";
    assert_eq!(file_of(text).names.constant(bikuvoa::Constant(0)), "n");
}
