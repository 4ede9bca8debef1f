//! Queries and views.

use super::{file_of, query, words, DECLARED};
use bik::model::Node;
use bikuvoa::layout::token::{backward, class, constant, forward, mark};
use bikuvoa::layout::token::{BOTH, COMMON, EMPTY, EVERYTHING, REACHED};
use bikuvoa::layout::{self, Pair};
use bikuvoa::Mark;

/// Whether the body of a query is these tokens.
#[track_caller]
fn is_read_as(body: &str, tokens: &[Pair]) {
    let file = file_of(&format!("{DECLARED} QueryClass Q {body} end"));
    assert_eq!(words(&file, "Q"), layout::concept(tokens), "{body}");
}

#[test]
fn members() {
    is_read_as("", &[EVERYTHING]);
    is_read_as("with derived where", &[EVERYTHING]);
    is_read_as("isA Object", &[EVERYTHING]);
    is_read_as("isA {d}", &[constant(1)]);
    is_read_as(
        "isA B, A, {c}",
        &[class(1), class(0), BOTH, constant(0), BOTH],
    );
    is_read_as(
        "isA A, [isA B, {c}]",
        &[class(0), class(1), constant(0), BOTH, BOTH],
    );
    is_read_as("isA [], [isA [isA B]]", &[EVERYTHING, class(1), BOTH]);
    // Brackets side by side do not nest.
    let views = (0..65).map(|i| format!("View V{i} isA [] end "));
    assert_eq!(file_of(&views.collect::<String>()).queries.len(), 65);
    let nested = format!("{}isA A{}", "isA [".repeat(64), "]".repeat(64));
    is_read_as(&nested, &[class(0)]);
}

#[test]
fn paths() {
    is_read_as("with derived this", &[EMPTY, REACHED]);
    is_read_as("with derived p", &[EMPTY, EVERYTHING, forward(0), REACHED]);
    let both_ways = [
        EMPTY,
        EVERYTHING,
        backward(0),
        EVERYTHING,
        backward(1),
        REACHED,
    ];
    is_read_as("with derived q.r^", &both_ways);
    let landed = [
        EMPTY,
        class(0),
        class(1),
        BOTH,
        EVERYTHING,
        BOTH,
        backward(1),
        REACHED,
    ];
    is_read_as("with derived (r^: A & B & Object)", &landed);
    let nested = [
        EMPTY,
        EMPTY,
        class(0),
        forward(0),
        REACHED,
        backward(0),
        REACHED,
    ];
    is_read_as("with derived (q: [with derived (p: A)])", &nested);
}

#[test]
fn equations() {
    let (p, r) = (
        [EMPTY, EVERYTHING, forward(0)],
        [EMPTY, EVERYTHING, forward(1)],
    );
    let common = [&p[..], &r, &[COMMON]].concat();
    is_read_as("with derived l: p m: r where l = m", &common);
    let turned = [&r[..], &p, &[COMMON]].concat();
    is_read_as("with derived l: p m: r where m = l", &turned);
    is_read_as(
        "with derived l: p where l = l",
        &[&p[..], &p, &[COMMON]].concat(),
    );
    is_read_as(
        "with derived l: p where this = l",
        &[&[EMPTY][..], &p, &[COMMON]].concat(),
    );
    is_read_as("with where this = this", &[EMPTY, EMPTY, COMMON]);
    // First the members, then the paths that no equation uses, then the equations.
    let body = "isA A with derived k: p l: p r n: r m: r where n = this l = m";
    let parts: [&[Pair]; 8] = [
        &[class(0)],
        &p,
        &[REACHED, BOTH],
        &r,
        &[REACHED, BOTH],
        &[&r[..], &[EMPTY, COMMON, BOTH]].concat(),
        &common,
        &[BOTH],
    ];
    is_read_as(body, &parts.concat());
}

#[test]
fn marks_are_numbered_in_the_order_of_the_text() {
    let marks = |body: &str| {
        let file = file_of(&format!("{DECLARED} QueryClass Q {body} end"));
        let told = query(&file, "Q").marks.clone();
        told.into_iter()
            .map(|(name, Mark(number))| format!("{name}={number}"))
            .collect::<Vec<_>>()
    };
    assert_eq!(marks("isA ?x, ?y, ?x"), ["x=0", "y=1"]);
    assert_eq!(marks("isA ?x, ?1, ?y, ?0"), ["x=2", "1=1", "y=3", "0=0"]);
    assert_eq!(
        marks("with derived (p: [isA ?b]).(r: ?a) where"),
        ["b=0", "a=1"]
    );
    let tokens = [mark(2), mark(1), BOTH, mark(3), BOTH, mark(0), BOTH];
    is_read_as("isA ?x, ?1, ?y, ?0", &tokens);
}

#[test]
fn queries_stand_in_others() {
    let text = format!("{DECLARED} View V isA A, B end View W isA V, V with derived (p: V) end");
    let file = file_of(&text);
    let v = [class(0), class(1), BOTH];
    let twice = [&v[..], &v, &[BOTH]].concat();
    let w = [&twice[..], &[EMPTY], &v, &[forward(0), REACHED, BOTH]].concat();
    assert_eq!(words(&file, "W"), layout::concept(&w));
    let places: Vec<_> = query(&file, "W").concept.parts()[1]
        .parts()
        .iter()
        .collect();
    let second = text.find("V, V").expect("the members") + 3;
    assert!(places
        .iter()
        .all(|part| part.span.start == second && part.span.end == second + 1));
}

#[test]
fn parts_and_their_places() {
    let body = "isA [isA A, B], {c} with derived l: (p: A & B).r m: this r where l = m";
    let file = file_of(&format!("{DECLARED} QueryClass Q {body} end Q"));
    let concept = &query(&file, "Q").concept;
    let parts: Vec<_> = concept
        .parts()
        .iter()
        .map(|part| file.source.at(part.span))
        .collect();
    assert_eq!(parts, ["[isA A, B]", "{c}", "r", "l = m"]);
    assert_eq!(file.source.at(concept.span), body);
    let file = file_of(&format!("{DECLARED} QueryClass Q isA A end View Empty end"));
    assert_eq!(file.source.at(query(&file, "Q").concept.span), "A");
    assert_eq!(file.source.at(query(&file, "Empty").concept.span), "Empty");
}

#[test]
fn steps_and_their_places() {
    let file = file_of(&format!(
        "{DECLARED} View V with derived l: (p: A & B).r^ end"
    ));
    let concept = &query(&file, "V").concept;
    let Node::Reached(path) = &concept.node else {
        panic!("{concept:?}");
    };
    let at = |span| file.source.at(span);
    assert_eq!(
        (at(concept.span), at(path.span)),
        ("(p: A & B).r^", "(p: A & B).r^")
    );
    let places: Vec<_> = path
        .steps
        .iter()
        .map(|step| (at(step.span), at(step.landing.span)))
        .collect();
    assert_eq!(places, [("(p: A & B)", "A & B"), ("r^", "r^")]);
}
