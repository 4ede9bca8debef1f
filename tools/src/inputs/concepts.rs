//! The queries, views and concepts of the inputs.

use super::schemas::{CONSULTS, NAME, SKILLED_IN, SUFFERS, WEARS};
use super::schemas::{DISEASE, DOCTOR, FEMALE, FREE, MALE, PATIENT, PERSON, STRAP, STRING};
use bikuvoa::layout::token::{backward, class, forward, mark};
use bikuvoa::layout::token::{BOTH, COMMON, EMPTY, EVERYTHING, REACHED};
use bikuvoa::layout::{concept, Pair, MAX_ATTRIBUTES, MAX_CLASSES, MAX_TOKENS};
use bikuvoa::layout::{QUERY_STEPS, VIEW_STEPS};

pub fn person() -> Vec<u16> {
    concept(&[class(PERSON)])
}

pub fn everything() -> Vec<u16> {
    concept(&[EVERYTHING])
}

/// Persons who wear a strap.
pub fn wearers() -> Vec<u16> {
    concept(&[
        class(PERSON),
        EMPTY,
        class(STRAP),
        forward(WEARS),
        REACHED,
        BOTH,
    ])
}

/// A value of wears that is also worn by a strap.
pub fn there_and_back() -> Vec<u16> {
    concept(&[
        EMPTY,
        EVERYTHING,
        forward(WEARS),
        class(STRAP),
        backward(WEARS),
        REACHED,
    ])
}

/// The report's query: male patients who consult a female doctor skilled in
/// what they suffer from.
pub fn patients() -> Vec<u16> {
    concept(&[
        class(MALE),
        class(PATIENT),
        BOTH,
        EMPTY,
        class(FEMALE),
        forward(CONSULTS),
        EMPTY,
        EVERYTHING,
        forward(SUFFERS),
        class(DOCTOR),
        backward(SKILLED_IN),
        COMMON,
        BOTH,
    ])
}

/// The same with a mark for the doctor, who stands in two paths.
pub fn marked_patients() -> Vec<u16> {
    concept(&[
        class(MALE),
        class(PATIENT),
        BOTH,
        EMPTY,
        class(FEMALE),
        mark(0),
        BOTH,
        forward(CONSULTS),
        REACHED,
        BOTH,
        EMPTY,
        EVERYTHING,
        forward(SUFFERS),
        class(DOCTOR),
        mark(0),
        BOTH,
        backward(SKILLED_IN),
        REACHED,
        BOTH,
    ])
}

/// Who consults a doctor skilled in a disease.
pub fn in_treatment() -> [Pair; 6] {
    [
        EMPTY,
        class(DOCTOR),
        forward(CONSULTS),
        class(DISEASE),
        forward(SKILLED_IN),
        REACHED,
    ]
}

/// Patients who do.
pub fn treated() -> Vec<u16> {
    concept(&[&[class(PATIENT)][..], &in_treatment(), &[BOTH]].concat())
}

/// The report's view: named patients with a doctor skilled in their disease.
pub fn known_patients() -> Vec<u16> {
    concept(&[
        class(PATIENT),
        EMPTY,
        class(STRING),
        forward(NAME),
        REACHED,
        BOTH,
        EMPTY,
        class(DOCTOR),
        forward(CONSULTS),
        class(DISEASE),
        forward(SKILLED_IN),
        EMPTY,
        class(DISEASE),
        forward(SUFFERS),
        COMMON,
        BOTH,
    ])
}

/// Puts a path with these steps, each landing on the class.
fn put_path(tokens: &mut Vec<Pair>, landing: u16, steps: impl Iterator<Item = Pair>) {
    tokens.push(EMPTY);
    tokens.extend(steps.flat_map(|step| [class(landing), step]));
}

/// The record with as many tokens as there may be, by asking for class 0 over
/// and over, and once for what the empty path reaches if the tokens are odd.
fn filled(mut tokens: Vec<Pair>) -> Vec<u16> {
    if tokens.len() % 2 == 1 {
        tokens.extend([EMPTY, REACHED, BOTH]);
    }
    while tokens.len() < MAX_TOKENS {
        tokens.extend([class(0), BOTH]);
    }
    concept(&tokens)
}

/// Two paths of eight steps each, out and on, to a common object.
pub fn long_paths() -> Vec<u16> {
    let mut tokens = Vec::new();
    put_path(&mut tokens, 1, (0..QUERY_STEPS / 2).map(|_| forward(0)));
    put_path(&mut tokens, 1, (0..QUERY_STEPS / 2).map(|_| backward(0)));
    tokens.push(COMMON);
    filled(tokens)
}

/// The same two paths, each to the object of one mark.
pub fn marked_paths() -> Vec<u16> {
    let mut tokens = Vec::new();
    for step in [forward(0), backward(0)] {
        put_path(&mut tokens, 1, (0..QUERY_STEPS / 2).map(|_| step));
        mark_end(&mut tokens, 0);
        tokens.push(REACHED);
    }
    tokens.push(BOTH);
    filled(tokens)
}

/// Has the last step of a path, which ends the tokens, land on the object of a mark.
fn mark_end(tokens: &mut Vec<Pair>, number: u16) {
    let step = tokens.len() - 1;
    tokens.splice(step..step, [mark(number), BOTH]);
}

/// A path of six steps.
pub fn six_steps() -> Vec<u16> {
    let mut tokens = Vec::new();
    put_path(&mut tokens, 1, (0..VIEW_STEPS).map(|_| forward(0)));
    tokens.push(REACHED);
    filled(tokens)
}

/// Four paths of four steps along all attributes.
pub fn star() -> Vec<u16> {
    star_with(|_, _| {})
}

/// The same with a mark at each end. The first two ends are one object, and so are the
/// last two.
pub fn marked_star() -> Vec<u16> {
    star_with(|tokens, arm| mark_end(tokens, arm / 2))
}

/// With what `finish` does to the path of each arm.
fn star_with(finish: fn(&mut Vec<Pair>, u16)) -> Vec<u16> {
    let mut tokens = vec![EMPTY, REACHED];
    for arm in 0..4 {
        let steps = (0..4).map(|step| forward((4 * arm + step) % MAX_ATTRIBUTES));
        put_path(&mut tokens, 0, steps);
        finish(&mut tokens, arm);
        tokens.extend([REACHED, BOTH]);
    }
    filled(tokens)
}

/// A path along six attributes that the largest schema needs, to a class that
/// nothing is forced into.
pub fn six_needs() -> Vec<u16> {
    needs(0..)
}

/// The same along the first six of these attributes.
pub fn needs(attributes: impl Iterator<Item = u16>) -> Vec<u16> {
    let mut tokens = Vec::new();
    put_path(&mut tokens, 0, attributes.take(VIEW_STEPS).map(forward));
    let last = tokens.len() - 2;
    tokens[last] = class(FREE);
    tokens.push(REACHED);
    filled(tokens)
}

/// As many tokens as there may be, a path of so many steps among them, which name
/// all classes and as many attributes as there are steps for.
pub fn all_named(steps: usize) -> Vec<u16> {
    let mut classes = (0..MAX_CLASSES).cycle().map(class);
    let attributes = (0..MAX_ATTRIBUTES).cycle().map(forward);
    let mut tokens = vec![EMPTY];
    for (landing, step) in classes.by_ref().zip(attributes).take(steps) {
        tokens.extend([landing, step]);
    }
    tokens.push(REACHED);
    let more = (MAX_TOKENS - tokens.len()) / 2;
    tokens.extend(classes.take(more).flat_map(|class| [class, BOTH]));
    concept(&tokens)
}

/// How many common objects stand in each other.
const DEPTH: usize = 15;

/// An object that is its own value, and that value is its own value, and so on.
pub fn nested() -> Vec<u16> {
    let mut tokens = vec![EMPTY; DEPTH];
    tokens.push(class(1));
    for _ in 0..DEPTH {
        tokens.extend([forward(0), EMPTY, COMMON]);
    }
    filled(tokens)
}

/// One common object with as many steps in its two paths.
pub fn flat() -> Vec<u16> {
    let mut tokens = Vec::new();
    put_path(&mut tokens, 1, (0..DEPTH / 2).map(|_| forward(0)));
    put_path(&mut tokens, 1, (DEPTH / 2..DEPTH).map(|_| forward(0)));
    tokens.push(COMMON);
    filled(tokens)
}
