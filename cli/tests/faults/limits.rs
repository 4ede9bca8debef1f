//! One more than there may be.

use super::at;
use bik::read::read;
use bik::source::Source;

/// The texts of these numbers, one after the other.
fn many(numbers: std::ops::Range<usize>, text: impl Fn(usize) -> String) -> String {
    numbers.map(text).collect()
}

#[test]
fn limits_of_the_schema() {
    let text = many(0..24, |i| format!("Class A{i} end "));
    let message = "`B` is the 25th class; a schema has at most 24 classes";
    at(&format!("{text}\nClass B end"), (2, 7), 1, message);
    let text = many(0..8, |i| format!("Attribute a{i} end "));
    let message = "`b` is the 9th attribute; a schema has at most 8 attributes";
    at(&format!("{text}\nAttribute b end"), (2, 11), 1, message);
    let text = many(0..4, |i| format!("Constant c{i} "));
    let message = "`d` is the 5th constant; a schema has at most 4 constants";
    at(&format!("{text}\nConstant d"), (2, 10), 1, message);
    let text = many(0..96, |_| "axiom A isA A\n".to_string());
    let message = "this is the 97th axiom; a schema has at most 96 axioms";
    at(&format!("{text}Class A isA A end"), (97, 13), 1, message);
    at(
        &format!("{text}axiom A isA A\nClass A end"),
        (97, 7),
        7,
        message,
    );
}

#[test]
fn limits_of_concepts() {
    let members = "Object, ".repeat(32);
    let text = format!("QueryClass Q isA\n{members}Object end");
    at(
        &text,
        (1, 12),
        1,
        "QueryClass `Q` has 65 tokens; a concept has at most 64",
    );
    let steps = ".a".repeat(16);
    let text = format!("QueryClass Q with derived\na{steps} end Attribute a end");
    at(
        &text,
        (1, 12),
        1,
        "QueryClass `Q` has 17 steps; a query has at most 16",
    );
    let nested = "[isA ".repeat(64);
    let text = format!("QueryClass Q isA\n{nested}\n[");
    at(&text, (3, 1), 1, "brackets nest at most 64 deep");
    // A query of 63 tokens in place of each name, and of so many names.
    let (wide, names) = ("Object, ".repeat(31), "Q, ".repeat(160));
    let text = format!("View Q isA {wide}Object end\nView R isA Q, Q end");
    at(
        &text,
        (2, 6),
        1,
        "View `R` has 127 tokens; a concept has at most 64",
    );
    let text = format!("View Q isA {wide}Object end\nView R isA\n{names}Q end");
    at(
        &text,
        (2, 6),
        1,
        "View `R` has more than 10,000 tokens; a concept has at most 64",
    );
}

#[test]
fn limits_of_states() {
    let objects = many(0..480, |i| format!("o{i}\n"));
    let message = "`o` is the 481st object of `S`; a state has at most 480 objects";
    at(&format!("State S\n{objects}o end"), (482, 1), 1, message);

    // 32 objects with 480 values each, one of them twice, and one in 24 classes:
    // just as many facts as there may be.
    let classes = many(0..24, |i| format!("Class C{i} end "));
    let values = many(0..480, |i| format!("o{i}, "));
    let lines = many(0..32, |i| format!("o{i} with a: {values}o{i}\n"));
    let others = many(32..479, |i| format!("o{i} "));
    let listed = many(0..23, |i| format!("C{i}, "));
    let text = format!("{classes}Attribute a end State S\n{lines}{others}\no479 in {listed}C23");
    let full = Source {
        name: String::new(),
        text: format!("{text} end"),
    };
    assert!(read(full).is_ok());
    let message = "this is the 15,385th fact of `S`; a state has at most 15,384 facts";
    at(&format!("{text} with\na: o0 end"), (36, 4), 2, message);
}
