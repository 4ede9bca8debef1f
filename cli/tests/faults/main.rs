//! Faulty texts: what is told of each, where, and what the carets stand under.

mod grammar;
mod limits;
mod names;

use bik::read::read;
use bik::source::Source;

/// What is told of the text.
fn told(text: &str) -> String {
    let source = Source {
        name: "e.bik".to_string(),
        text: text.to_string(),
    };
    read(source).expect_err(text).to_string()
}

/// The message is told at this line and column, with carets under so many
/// characters of that line.
#[track_caller]
fn at(text: &str, (line, column): (usize, usize), width: usize, message: &str) {
    let shown = text.lines().nth(line - 1).unwrap_or("");
    let (blanks, carets) = (" ".repeat(column - 1), "^".repeat(width));
    let expected = format!("e.bik:{line}:{column}: {message}\n{shown}\n{blanks}{carets}");
    assert_eq!(told(text), expected);
}

/// The message is told of the one line under the part in guillemets.
#[track_caller]
fn under(text: &str, message: &str) {
    let (before, rest) = text.split_once('«').expect("a part in guillemets");
    let (part, after) = rest.split_once('»').expect("the end of the part");
    let (column, width) = (before.chars().count() + 1, part.chars().count().max(1));
    at(
        &format!("{before}{part}{after}"),
        (1, column),
        width,
        message,
    );
}

const CLUB: &str = "\
Class Person with attribute, single wears end Person
Class Rower isA Person with
  attribute, necessary wears
end Rower
Class Strap end
Class Session end
Attribute wears with domain: Person range: Strap inverse: wearer end wears
Attribute attends with domain: Person range: Session end attends

QueryClass Rowers isA Rower with
  derived (attends: Session)
end Rowers
View Wearers isA Person with
  derived (wears: Strap)
end Wearers
";

/// The club with one piece of its text exchanged.
fn club(old: &str, new: &str) -> String {
    assert_eq!(CLUB.matches(old).count(), 1, "{old}");
    CLUB.replace(old, new)
}

#[test]
fn the_whole_text_of_a_fault() {
    let text = club("(attends: Session)", "(atends: Session)");
    let expected = "\
e.bik:11:12: no attribute is called `atends`; did you mean `attends`?
  derived (atends: Session)
           ^^^^^^";
    assert_eq!(told(&text), expected);

    let text = club("end Rower\n", "end Person\n");
    let expected = "\
e.bik:4:5: this ends `Person`, but `Rower` was begun in line 2
end Person
    ^^^^^^";
    assert_eq!(told(&text), expected);

    let text = club(
        "(wears: Strap)",
        "wears.wearer.wears.wearer.wears.wearer.wears.wears^",
    );
    let expected = "\
e.bik:13:6: View `Wearers` has 8 steps; a view has at most 6
View Wearers isA Person with
     ^^^^^^^";
    assert_eq!(told(&text), expected);
}

#[test]
fn carets() {
    let tabs = "Class\tA isA\n\tA,\tB end";
    let expected = "e.bik:2:5: no class is called `B`\n\tA,\tB end\n\t  \t^";
    assert_eq!(told(tabs), expected);
    let carriage = "Class A end\r\nClass Ä isA Öde end\r\n";
    let expected = "e.bik:2:13: no class is called `Öde`\nClass Ä isA Öde end\n            ^^^";
    assert_eq!(told(carriage), expected);
    // Of several lines the first.
    at(
        "Constant c Constant d\nState S x c is x d\n is x end",
        (2, 18),
        1,
        "`c` and `d` are both `x`, and neither is loose",
    );
    let control = "Class A \u{1b}[2J";
    let expected =
        "e.bik:1:9: the character `\\u{1b}` has no meaning here\nClass A \u{fffd}[2J\n        ^";
    assert_eq!(told(control), expected);
}

#[test]
fn of_a_long_line_a_part_is_shown() {
    let many = "A, ".repeat(60);
    let fault = told(&format!("View V isA {many}Boat, {many}A end"));
    let shown = format!(" {}Boat, {}", "A, ".repeat(13), "A, ".repeat(38));
    let carets = format!("{}^^^^", " ".repeat(40));
    let message = "no class, query or view is called `A`";
    assert!(fault.starts_with(&format!("e.bik:1:12: {message}\nView V isA A, ")));
    let fault = told(&format!("Class A end View V isA {many}Boat, {many}A end"));
    let message = message.replace('A', "Boat");
    assert_eq!(fault, format!("e.bik:1:204: {message}\n{shown}\n{carets}"));
}
