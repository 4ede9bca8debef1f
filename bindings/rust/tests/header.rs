//! The version, the stack, the numbers of the format and of the refusals, and the
//! declarations of the functions are those of include/bikuvoa.h.

use bikuvoa::layout::{self, axiom, fact, token, CONCEPT, SCHEMA, STATE};
use bikuvoa::{raw, Refusal, Signature};
use std::collections::BTreeMap;

/// Each refusal by the header's name.
const REFUSALS: [(&str, Refusal); 15] = [
    ("BAD_SCHEMA_SHAPE", Refusal::BAD_SCHEMA_SHAPE),
    ("BAD_AXIOM", Refusal::BAD_AXIOM),
    ("BAD_CONCEPT_SHAPE", Refusal::BAD_CONCEPT_SHAPE),
    ("BAD_TOKEN", Refusal::BAD_TOKEN),
    ("BAD_PILE", Refusal::BAD_PILE),
    ("BAD_STEPS", Refusal::BAD_STEPS),
    ("BAD_STATE_SHAPE", Refusal::BAD_STATE_SHAPE),
    ("BAD_FACT", Refusal::BAD_FACT),
    ("BAD_ORDER", Refusal::BAD_ORDER),
    ("BAD_CONSTANTS", Refusal::BAD_CONSTANTS),
    ("FEW_LENT_WORDS", Refusal::FEW_LENT_WORDS),
    ("BAD_ATTRIBUTE", Refusal::BAD_ATTRIBUTE),
    ("BAD_CATALOGUE", Refusal::BAD_CATALOGUE),
    ("BAD_LOOSE", Refusal::BAD_LOOSE),
    ("BAD_CLASS_FACTS", Refusal::BAD_CLASS_FACTS),
];

/// A file, by its path from this crate's folder.
fn read(path: &str) -> String {
    let folder = env!("CARGO_MANIFEST_DIR");
    std::fs::read_to_string(format!("{folder}/{path}")).expect("a file")
}

fn header_text() -> String {
    read("../../include/bikuvoa.h")
}

/// The macros and enumerators that are numbers, or sums of products of numbers and
/// of earlier ones, without their prefix.
fn header() -> BTreeMap<String, usize> {
    let text = header_text();
    let mut numbers: BTreeMap<String, usize> = BTreeMap::new();
    for line in text.lines() {
        let line = line
            .trim()
            .trim_start_matches("#define ")
            .replace(" = ", " ");
        let Some((name, text)) = line.trim_end_matches(',').split_once(' ') else {
            continue;
        };
        let factor = |text: &str| match text.strip_prefix("BIKUVOA_") {
            Some(earlier) => numbers.get(earlier).copied(),
            None => text.parse().ok(),
        };
        let product = |text: &str| text.split(" * ").map(factor).product::<Option<usize>>();
        let products = text.trim_matches(['(', ')']).split(" + ").map(product);
        if let (Some(name), Some(number)) = (name.strip_prefix("BIKUVOA_"), products.sum()) {
            numbers.insert(name.to_string(), number);
        }
    }
    numbers
}

#[test]
fn the_numbers_are_the_headers() {
    let header = header();
    let same = |name: &str, number: usize| {
        assert_eq!(header.get(name), Some(&number), "{name}");
    };
    same("STACK_BYTES", raw::STACK_BYTES);
    same("MAX_CLASSES", layout::MAX_CLASSES.into());
    same("MAX_ATTRIBUTES", layout::MAX_ATTRIBUTES.into());
    same("MAX_CONSTANTS", layout::MAX_CONSTANTS.into());
    same("MAX_MARKS", layout::MAX_MARKS.into());
    same("MAX_AXIOMS", layout::MAX_AXIOMS);
    same("MAX_TOKENS", layout::MAX_TOKENS);
    same("QUERY_STEPS", layout::QUERY_STEPS);
    same("VIEW_STEPS", layout::VIEW_STEPS);
    same("MAX_VIEWS", layout::MAX_VIEWS);
    same("MAX_OBJECTS", layout::MAX_OBJECTS.into());
    same("MAX_FACTS", layout::MAX_FACTS);
    same("SCHEMA_SIZES", SCHEMA.sizes);
    same("AT_AXIOMS", SCHEMA.counter);
    same("AT_LOOSE", layout::LOOSE);
    same("CONCEPT_SIZES", CONCEPT.sizes);
    same("AT_TOKENS", CONCEPT.counter);
    same("STATE_SIZES", STATE.sizes);
    same("AT_FACTS", STATE.counter);
    same("AT_CLASS_FACTS", layout::CLASS_FACTS);
    same("BYTE_PART", axiom::subclass(0, 0).0.into());
    same("OBJECT_PART", fact::member(1, 0).0.into());
    same("ATTRIBUTE_KINDS", fact::ATTRIBUTE_KINDS.into());
    same("CONSTANT_KINDS", fact::CONSTANT_KINDS.into());
    same("MARK_KINDS", fact::MARK_KINDS.into());
    same("FACT_KINDS", fact::FACT_KINDS.into());
    for (name, kind) in [
        ("SUBCLASS", axiom::SUBCLASS),
        ("TYPING", axiom::TYPING),
        ("NECESSARY", axiom::NECESSARY),
        ("SINGLE", axiom::SINGLE),
        ("RELATES", axiom::RELATES),
        ("CLASS", token::CLASS),
        ("EVERYTHING", token::EVERYTHING.0),
        ("CONSTANT", token::CONSTANT),
        ("BOTH", token::BOTH.0),
        ("EMPTY", token::EMPTY.0),
        ("FORWARD", token::FORWARD),
        ("BACKWARD", token::BACKWARD),
        ("REACHED", token::REACHED.0),
        ("COMMON", token::COMMON.0),
        ("MARK", token::MARK),
    ] {
        same(name, kind.into());
    }
    for (name, refusal) in REFUSALS {
        same(name, refusal.number().into());
    }
}

#[test]
fn the_size_words_of_a_schema_are_the_headers() {
    let header = header();
    let mut words = vec![0; SCHEMA.sizes];
    words[header["AT_CLASSES"]] = 1;
    words[header["AT_ATTRIBUTES"]] = 2;
    words[header["AT_CONSTANTS"]] = 3;
    words[header["AT_LOOSE"]] = 4;
    let signature = Signature {
        classes: 1,
        attributes: 2,
        constants: 3,
        loose: 4,
    };
    assert_eq!(layout::schema(signature, &[]), words);
    assert_eq!(Signature::of(&words), Some(signature));
}

#[test]
fn the_size_words_of_a_state_are_the_headers() {
    let header = header();
    let mut words = vec![0; STATE.sizes];
    words[header["AT_OBJECTS"]] = 5;
    words[header["AT_FACTS"]] = 3;
    words[header["AT_CLASS_FACTS"]] = 1;
    let facts = [fact::member(1, 0), fact::pair(0, 0, 0), fact::choice(0, 0)];
    assert_eq!(layout::state(5, &facts)[..STATE.sizes], words);
    assert_eq!(layout::objects(&words), Some(5));
    assert_eq!(layout::class_facts(&words), Some(1));
}

#[test]
fn the_version_is_the_headers() {
    let header = header();
    let parts = ["MAJOR", "MINOR", "PATCH"];
    let version = parts.map(|part| header[&format!("VERSION_{part}")].to_string());
    assert_eq!(version.join("."), env!("CARGO_PKG_VERSION"));
}

#[test]
fn the_texts_are_the_headers() {
    let header = header_text();
    // Strings that stand on several lines are one, as for the compiler.
    let parts: Vec<&str> = header.split('"').collect();
    let mut joined = String::new();
    for (i, part) in parts.iter().enumerate() {
        if i % 2 == 1 || !part.trim().is_empty() {
            joined.push_str(part);
        }
    }
    for (_, refusal) in REFUSALS {
        let said = refusal.to_string();
        let (_, text) = said.split_once(": ").expect("a text after the number");
        assert!(joined.contains(text), "{text}");
    }
}

/// The parameters of each function that a text declares with these words before
/// its name and after its parameters.
fn declared(text: &str, before: &str, after: &str) -> BTreeMap<String, Vec<String>> {
    let functions = text.split(before).skip(1);
    let functions = functions.filter_map(|text| text.split_once(after)?.0.split_once('('));
    let functions = functions.map(|(name, parameters)| {
        let parameters = parameters.split(',').map(str::trim);
        let parameters = parameters.filter(|parameter| !parameter.is_empty());
        (name.to_string(), parameters.map(str::to_string).collect())
    });
    functions.collect()
}

/// A parameter of C as Rust declares it.
fn in_rust(parameter: &String) -> String {
    let (c_type, name) = parameter.rsplit_once(' ').expect("a type and a name");
    let (pointer, number) = match (c_type.strip_prefix("const "), name.starts_with('*')) {
        (Some(number), _) => ("*const ", number),
        (None, true) => ("*mut ", c_type),
        (None, false) => ("", c_type),
    };
    let number = match number {
        "uint16_t" => "u16",
        "uint32_t" => "u32",
        "uint64_t" => "u64",
        "size_t" => "usize",
        other => panic!("{other} in {parameter}"),
    };
    format!("{}: {pointer}{number}", name.trim_start_matches('*'))
}

#[test]
fn the_functions_are_the_headers() {
    let mut header = declared(&header_text(), "\nuint16_t bikuvoa_", ");");
    for parameters in header.values_mut() {
        *parameters = parameters.iter().map(in_rust).collect();
    }
    let raw = declared(&read("src/raw.rs"), "\n    fn bikuvoa_", ") -> u16;");
    assert_eq!(raw, header);
    assert_eq!(raw.len(), 11, "{:?}", raw.keys());
}
