//! Random and damaged texts. Nothing panics, every fault has a place in the text, and
//! what is read is accepted by the library.

use bik::lex::{self, RESERVED};
use bik::model::File;
use bik::read::read;
use bik::source::Source;
use bikuvoa::{check_query, check_view, Schema, State};
use tools::prng::Prng;

/// Texts to damage: the examples, and one that has what they lack.
const TEXTS: [&str; 4] = [
    include_str!("../../example/patient.bik"),
    include_str!("../../example/rowing.bik"),
    include_str!("../../example/stroke.bik"),
    "
Class A isA B with attribute, necessary p: B r end A Class B end
Attribute p with domain: A range: B inverse: q end Attribute r end r
Constant c Constant d loose
axiom A types p: B axiom A needs r axiom B single p axiom r relates A to B axiom B isA A
QueryClass Q isA A, {c}, ?x with derived l: (p: B & ?x).q m: r^ this where l = m end Q
View V isA [isA B with derived (q: {d} & Object)] end
View W isA V, Object with derived l: r where this = l end
State S for Q x in A, B with p: y, x; q: y  y c is x d is y ?x is y end S
State T ?3 is o o d is o c is o end
",
];

/// What random texts are made of, beside the reserved words.
const PIECES: [&str; 30] = [
    "A", "B", "p", "q", "r", "c", "d", "x", "y", "?x", "?0", "?7", "?", "Ünal", "_", "7", "--",
    "\n", "\t", ",", ":", ".", "(", ")", "&", "{", "}", "[", "]", "^",
];

fn attempt(text: String) -> bool {
    let source = Source {
        name: "f.bik".to_string(),
        text,
    };
    let text = source.text.clone();
    match read(source) {
        Ok(file) => {
            check_accepted(&file);
            true
        }
        Err(fault) => {
            check_place(&text, &fault.to_string());
            false
        }
    }
}

/// The library accepts every record of a file that was read.
fn check_accepted(file: &File) {
    let text = &file.source.text;
    let schema = Schema::from_words(file.schema()).expect(text);
    for query in &file.queries {
        let words = query.concept.words();
        check_query(schema.words(), &words).expect(text);
        if query.is_view {
            check_view(schema.words(), &words).expect(text);
        }
    }
    for state in &file.states {
        State::from_words(&schema, state.words()).expect(text);
    }
}

/// The fault has three lines: a place in the text and a sentence, a part of that
/// line, and carets that do not begin after it.
fn check_place(text: &str, fault: &str) {
    let lines: Vec<&str> = fault.split('\n').collect();
    let [first, shown, carets] = lines[..] else {
        panic!("{fault}\nof\n{text}");
    };
    let place: Vec<&str> = first.splitn(4, ':').collect();
    let [file, line, column, message] = place[..] else {
        panic!("{fault}\nof\n{text}");
    };
    let line: usize = line.parse().expect(fault);
    let column: usize = column.parse().expect(fault);
    let told = text.split('\n').nth(line - 1).expect(fault).chars().count();
    assert!(file == "f.bik" && message.len() > 10, "{fault}");
    assert!((1..=told + 1).contains(&column), "{fault}");
    let indent = carets.chars().take_while(|&c| c != '^').count();
    assert!(
        carets.contains('^') && indent <= shown.chars().count(),
        "{fault}"
    );
    assert!(told > 160 || indent + 1 == column, "{fault}");
}

/// A place from 0 to the length, and a later one that is not far away.
fn stretch(prng: &mut Prng, length: usize) -> (usize, usize) {
    let start = prng.between(0, length);
    let most = if prng.chance(80) { 3 } else { 40 };
    (start, (start + prng.between(0, most)).min(length))
}

/// A stretch left out, doubled, put elsewhere, or with something put before it.
fn damaged<T: Clone>(prng: &mut Prng, items: &[T], other: T) -> Vec<T> {
    let (start, end) = stretch(prng, items.len());
    let (before, meant, after) = (&items[..start], &items[start..end], &items[end..]);
    match prng.below(4) {
        0 => [before, after].concat(),
        1 => [before, meant, meant, after].concat(),
        2 => {
            let (near, far) = after.split_at(prng.between(0, after.len()));
            [before, near, meant, far].concat()
        }
        _ => [before, &[other], meant, after].concat(),
    }
}

#[test]
fn damaged_bytes() {
    let mut prng = Prng::new(1);
    let mut accepted = 0;
    for _ in 0..8_000 {
        let mut bytes = TEXTS[prng.below(TEXTS.len())].as_bytes().to_vec();
        for _ in 0..prng.between(1, 3) {
            let other = prng.word() as u8 & if prng.chance(90) { 127 } else { 255 };
            bytes = damaged(&mut prng, &bytes, other);
        }
        accepted += usize::from(attempt(String::from_utf8_lossy(&bytes).into_owned()));
    }
    assert!((400..7_600).contains(&accepted), "{accepted}");
}

#[test]
fn damaged_tokens() {
    let mut prng = Prng::new(2);
    let mut accepted = 0;
    for _ in 0..8_000 {
        let text = TEXTS[prng.below(TEXTS.len())];
        let mut tokens: Vec<&str> = lex::tokens(text).iter().map(|token| token.text).collect();
        for _ in 0..prng.between(1, 3) {
            let other = match prng.chance(50) {
                true => tokens[prng.below(tokens.len())],
                false => piece(&mut prng),
            };
            tokens = damaged(&mut prng, &tokens, other);
            tokens.push("");
        }
        accepted += usize::from(attempt(tokens.join(prng.one_of([" ", "\n"]))));
    }
    assert!((400..7_600).contains(&accepted), "{accepted}");
}

fn piece(prng: &mut Prng) -> &'static str {
    match prng.chance(50) {
        true => PIECES[prng.below(PIECES.len())],
        false => RESERVED[prng.below(RESERVED.len())],
    }
}

#[test]
fn random_pieces() {
    let mut prng = Prng::new(3);
    for _ in 0..8_000 {
        let count = prng.between(0, 40);
        // After the beginning of a query or state the rest is not refused at once.
        let start = prng.one_of(["", "Class A ", "QueryClass Q isA ", "State S x "]);
        let pieces: Vec<&str> = (0..count).map(|_| piece(&mut prng)).collect();
        attempt(format!("{start}{}", pieces.join(" ")));
    }
}

#[test]
fn random_characters() {
    let mut prng = Prng::new(4);
    for _ in 0..8_000 {
        let drawn = (0..prng.between(0, 30)).map(|_| match prng.chance(70) {
            true => char::from(prng.word_below(128) as u8),
            false => char::from_u32(prng.below(0x11_0000) as u32).unwrap_or('\u{feff}'),
        });
        attempt(drawn.collect());
    }
}

#[test]
fn deep_and_long() {
    for part in ["[", "(", "{", "?", "^", "isA ", "Class ", "«"] {
        assert!(!attempt(part.repeat(100_000)), "{part}");
    }
    for part in [
        "[isA ",
        "[with derived (a: ",
        "[isA A, ",
        "[",
        "A, ",
        "(a: ",
        "a.",
        "a ",
        "?m, ",
    ] {
        for start in [
            "QueryClass Q isA ",
            "View V with derived ",
            "State S x in ",
            "Class A isA ",
        ] {
            let text = format!("Attribute a end {start}{}", part.repeat(100_000));
            assert!(!attempt(text), "{start}{part}");
        }
    }
    assert!(attempt("--".repeat(100_000)));
    let long = "n".repeat(1_000_000);
    assert!(attempt(format!("Class {long} end {long}")));
    assert!(!attempt(format!("Class {long} isA {long}n end")));
    let lists = [
        format!("Class A end View V isA {}A end", "A, ".repeat(100_000)),
        format!(
            "Attribute a end View V with derived {}a end",
            "a.".repeat(100_000)
        ),
        format!("Class A isA {}A end", "A, ".repeat(100_000)),
        "Class A end ".repeat(100_000),
        format!("QueryClass Q isA {}Object end", "?m, ?3, ".repeat(100_000)),
        format!("View V with derived {} end", "this ".repeat(100_000)),
        format!(
            "View V with derived l: this where {} end",
            "l = this ".repeat(100_000)
        ),
    ];
    for text in lists {
        assert!(!attempt(text));
    }
    let members = "A, ".repeat(100_000);
    assert!(attempt(format!("Class A end State S x in {members}A end")));
}

/// Each query is the one above twice: their lengths double until one is too long.
#[test]
fn queries_of_queries() {
    let doubled = |i: usize| format!("QueryClass Q{} isA Q{i}, Q{i} end ", i + 1);
    let start = "QueryClass Q0 isA Object end ".to_string();
    let up_to = |last: usize| (0..last).fold(start.clone(), |text, i| text + &doubled(i));
    assert!(attempt(up_to(5)));
    assert!(!attempt(up_to(6)));
    assert!(!attempt(up_to(10_000)));
}
