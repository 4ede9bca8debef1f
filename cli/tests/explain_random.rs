//! Explanations of random questions, held to the library.

mod explained;

use bik::model::File;
use bik::{decode, print};
use bikuvoa::layout;
use explained::{asked, drawn, file, held, open, state_of, words};
use tools::draw::triple::{Marks, Triple};
use tools::draw::wide;
use tools::prng::Prng;

/// The triple's records as text, with the query `query` and the view `view`.
fn read(triple: &Triple) -> File {
    let query = layout::concept(&triple.query);
    let view = layout::concept(&triple.view);
    let others = vec![("query.bin", query), ("view.bin", view)];
    let decoded = decode::file(("schema.bin", triple.schema_words()), others);
    file("drawn.bik", &print::file(&decoded.expect("accepted")))
}

fn draw(prng: &mut Prng) -> Triple {
    let marks = Marks::draw(prng);
    match prng.below(8) {
        0..=2 => Triple::random(prng, marks),
        3..=5 => Triple::followed(prng, marks),
        6 => Triple::followed(prng, marks).near_miss(prng),
        _ => Triple::of_all_names(prng, marks),
    }
}

#[test]
fn random_answers_are_explained() {
    let mut prng = Prng::new(20);
    let [mut held, mut open, mut whole] = [0; 3];
    for _ in 0..700 {
        let file = read(&draw(&mut prng));
        let answer = asked(&file, "query", "view");
        let [query, view] = ["query", "view"].map(|name| words(&file, name));
        let is_held = bikuvoa::holds(&file.schema(), &query, &view).expect("accepted");
        assert_eq!(answer.is_held(), is_held);
        let drawing = answer.drawing(&mut |_| {}).expect("a drawing");
        if is_held {
            held += 1;
            held::check(&file, &answer);
            if !drawing.nodes.is_empty() {
                drawn::check(&file, &drawing);
                drawn::check_view(&file, &drawing);
                assert!(!drawn::is_missed(&drawing));
                whole += 1;
            }
        } else {
            open += 1;
            let state = open::check(&file, &answer);
            assert!(drawn::is_missed(&drawing));
            if drawing.note.is_none() {
                assert_eq!(drawn::check(&file, &drawing), state);
                whole += 1;
            }
        }
    }
    assert!(
        held > 100 && open > 100 && whole > 400,
        "{held}, {open}, {whole}"
    );
}

#[test]
fn large_states_are_drawn_in_part() {
    let mut prng = Prng::new(21);
    let mut parts = 0;
    for _ in 0..6 {
        let file = read(&wide::triple(&mut prng, Marks::Without));
        let answer = asked(&file, "query", "view");
        if answer.is_held() {
            continue;
        }
        let text = state_of(&answer.text());
        let objects = text
            .lines()
            .filter(|line| line.starts_with("  ") && !line.contains(" is "))
            .count();
        let drawing = answer.drawing(&mut |_| {}).expect("a drawing");
        let drawn = drawing.nodes.iter().filter(|node| !node.missing).count();
        match &drawing.note {
            None => assert!(drawn == objects && drawn <= 40),
            Some(note) => {
                parts += 1;
                assert!(objects > 40 && drawn < objects);
                let left = objects - drawn;
                let told = format!("Not drawn: {left} of {objects} objects, touched by no path");
                assert!(note.starts_with(&told), "{note}");
            }
        }
        let first = text.lines().nth(1).expect("an object").trim_start();
        assert!(first.starts_with(&format!("{} ", drawing.nodes[0].name)));
        assert!(drawn::is_missed(&drawing));
    }
    assert!(parts > 1, "{parts}");
}
