//! Records from files of any name, and of any sort.

use super::{reading, records};
use bik::model::File;
use bik::{decode, print};
use bikuvoa::layout::{self, fact, token, Signature};

fn schema() -> Vec<u16> {
    let signature = Signature {
        classes: 2,
        attributes: 1,
        ..Signature::default()
    };
    layout::schema(signature, &[])
}

fn decoded(others: Vec<(&str, Vec<u16>)>) -> File {
    let file = decode::file(("schema.bin", schema()), others);
    let file = file.unwrap_or_else(|fault| panic!("{fault}"));
    let text = print::file(&file);
    assert_eq!(records(&reading(&text)), records(&file), "{text}");
    file
}

/// A concept of that class.
fn concept(class: u16) -> Vec<u16> {
    layout::concept(&[token::class(class)])
}

#[test]
fn are_after_the_files() {
    for (file, expected) in [
        ("my-query.2.bin", "my_query_2"),
        ("some/folder/query.bin", "query"),
        ("view", "view"),
        ("2nd.bin", "_2nd"),
        ("été.bin", "été"),
        ("a b\n--c.bin", "a_b___c"),
        (".bin", "_bin"),
        ("", "_"),
        ("..", "__"),
        ("schema.bin", "schema_2"),
        ("catalogue.bin", "catalogue_2"),
        ("end.bin", "end_2"),
        ("Class1.bin", "Class1_2"),
        ("Class2.bin", "Class2"),
    ] {
        let file = decoded(vec![(file, concept(1))]);
        assert_eq!(file.queries[0].name.text, expected);
    }
}

#[test]
fn are_all_different() {
    let state = layout::state(1, &[fact::member(0, 0)]);
    let catalogue = layout::catalogue(&[concept(0), concept(1)]);
    let file = decoded(vec![
        ("a/x.bin", concept(0)),
        ("b/x.bin", state),
        ("x_2.bin", concept(1)),
        ("x.2.bin", concept(1)),
        ("catalogue.bin", catalogue.clone()),
        ("catalogue", catalogue),
    ]);
    let queries = file.queries.iter().map(|query| query.name.text.as_str());
    let expected = [
        "x",
        "x_2_2",
        "x_2_3",
        "catalogue_0",
        "catalogue_1",
        "catalogue_0_2",
        "catalogue_1_2",
    ];
    assert_eq!(queries.collect::<Vec<_>>(), expected);
    assert_eq!(file.states[0].name.text, "x_2");
    assert_eq!(file.views().count(), 4);
}

#[test]
fn are_numbers_within_records() {
    let signature = Signature {
        classes: 1,
        attributes: 1,
        constants: 2,
        loose: 2,
    };
    let step = [
        token::EMPTY,
        token::mark(0),
        token::backward(0),
        token::REACHED,
    ];
    let query = layout::concept(&[&step[..], &[token::mark(1), token::BOTH]].concat());
    let facts = [
        fact::pair(0, 1, 0),
        fact::name(0, 0),
        fact::name(1, 0),
        fact::choice(3, 1),
    ];
    let others = vec![("q.bin", query), ("s.bin", layout::state(2, &facts))];
    let file = decode::file(("schema.bin", layout::schema(signature, &[])), others);
    let expected = "\
Class Class0 end Class0
Attribute attribute0 end attribute0
Constant constant0
Constant constant1 loose

QueryClass q isA [with derived (attribute0^: ?0)], ?1 end q

State s
  object0
  object1 with attribute0: object0
  constant0 is object0
  constant1 is object0
  ?3 is object1
end s
";
    assert_eq!(print::file(&file.expect("accepted records")), expected);
}

/// Lengths that fit two sorts of record.
#[test]
fn sorts_are_told_apart() {
    let both_in_class = layout::state(2, &[fact::member(0, 0), fact::member(0, 1)]);
    let four = [(0, 0), (0, 1), (1, 0), (1, 1)];
    let four = four.map(|(class, object)| fact::member(class, object));
    let state = layout::state(2, &four);
    let catalogue = layout::catalogue(&[concept(0), concept(1)]);
    assert_eq!(state.len(), catalogue.len());
    assert_eq!(state[..3], catalogue[..3]);
    for record in [both_in_class, state] {
        assert_eq!(
            decoded(vec![("r", record.clone())]).states[0].words(),
            record
        );
    }
    assert_eq!(decoded(vec![("r", catalogue)]).views().count(), 2);
}

#[test]
fn faults_say_the_file_and_the_refusal() {
    let fault = |record: &[u16]| {
        let decoded = decode::file(("schema.bin", schema()), vec![("r.bin", record.to_vec())]);
        decoded.expect_err("a faulty record").to_string()
    };
    let view = layout::concept(&[token::mark(0)]);
    let undeclared = layout::concept(&[token::mark(0), token::class(2), token::BOTH]);
    for (record, told) in [
        (&[][..], "refused as 3:"),
        (&[1], "refused as 7:"),
        (&[0], "word 0: refused as 13:"),
        (&[481, 0, 0], "word 0: refused as 7:"),
        (&[2, 0, 1], "word 2: refused as 15:"),
        (&undeclared, "word 3: refused as 4:"),
        (&[1, 0, 4, 0], "word 2: refused as 5:"),
        (&[1, 1, 1, 0], "word 1: refused as 6:"),
        (&[1, 1, 1, 1024, 0], "word 3: refused as 8:"),
        (&[1, 1, 0, 0, 0], "word 2: refused as 15:"),
        (&[1, 4, 0, 0, 0, 0], "word 2: view 0 is refused as 3:"),
        (
            &layout::catalogue(&[view]),
            "word 4: view 0 is refused as 4:",
        ),
        (
            &layout::catalogue(&[(); 17].map(|()| concept(0))),
            "word 0: refused as 13:",
        ),
    ] {
        let fault = fault(record);
        assert!(
            fault.starts_with(&format!("r.bin: {told}")),
            "{record:?} {fault}"
        );
    }
    let fault = decode::file(("s.bin", vec![25, 0, 0, 0, 0]), Vec::new());
    let fault = fault.expect_err("a faulty schema").to_string();
    assert!(
        fault.starts_with("s.bin: ") && fault.contains("refused as 1:"),
        "{fault}"
    );
}

#[test]
fn bytes_are_low_ones_first() {
    assert_eq!(
        decode::words("r", &[1, 2, 255, 0]).ok(),
        Some(vec![513, 255])
    );
    assert_eq!(decode::bytes(&[513, 255]), [1, 2, 255, 0]);
    let fault = decode::words("r.bin", &[1, 2, 3]).expect_err("an odd number");
    assert!(fault.to_string().starts_with("r.bin: 3 bytes"), "{fault}");
}
