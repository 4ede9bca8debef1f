//! The explanation as JSON: one object. docs/TEXT.md has its keys.

use super::fails::{Miss, Part};
use super::instance::{Instance, OBJECT};
use super::wording::Wording;
use super::{named, Explanation, Held, Open, OtherWay};
use crate::model::File;
use crate::print;
use crate::source::{Place, Span};
use bikuvoa::{Fact, Object};
use std::fmt::{self, Write};

enum Json {
    Null,
    Truth(bool),
    Number(usize),
    Text(String),
    List(Vec<Json>),
    Object(Vec<(&'static str, Json)>),
}

pub fn open(explanation: &Explanation, open: &Open) -> String {
    let file = &explanation.file;
    let wording = Wording::of(file, &open.instance.frame);
    let parts = open.parts.iter().map(|each| part(file, &wording, each));
    let further = vec![
        ("object", text(wording.object(OBJECT))),
        ("state", state(explanation, &open.instance)),
        ("parts", list(parts)),
    ];
    whole(explanation, "OPEN", further)
}

pub fn held(explanation: &Explanation, held: &Held) -> String {
    let Explanation { file, query, .. } = explanation;
    let axioms = file.axioms.iter().zip(&held.needed.axioms);
    let needed = axioms.filter(|(_, &needed)| needed).map(|(stated, _)| {
        let words = print::axiom(&file.names, stated.axiom);
        Json::Object(vec![
            ("place", place(file, stated.span)),
            ("text", Json::Text(words)),
        ])
    });
    let parts = query.concept.parts().iter().zip(&held.needed.parts);
    let parts = parts.map(|(part, &needed)| {
        let words = print::part(&file.names, &query.marks, part);
        Json::Object(vec![
            ("place", place(file, part.span)),
            ("text", Json::Text(words)),
            ("needed", Json::Truth(needed)),
        ])
    });
    let other_way = match held.other_way {
        OtherWay::Held => text("HELD"),
        OtherWay::Open => text("OPEN"),
        OtherWay::HasMarks | OtherWay::HasSteps(_) => Json::Null,
    };
    let further = vec![
        ("axioms", Json::Number(file.axioms.len())),
        ("needed_axioms", list(needed)),
        ("no_other_way", Json::Truth(held.needed.is_only_way)),
        ("parts", list(parts)),
        ("empty", held.is_empty.map_or(Json::Null, Json::Truth)),
        ("other_way", other_way),
        ("filter", Json::Truth(held.other_way != OtherWay::Held)),
    ];
    whole(explanation, "HELD", further)
}

fn whole(explanation: &Explanation, answer: &str, further: Vec<(&'static str, Json)>) -> String {
    let mut entries = vec![
        ("answer", text(answer)),
        ("query", text(&explanation.query.name.text)),
        ("view", text(&explanation.view.name.text)),
    ];
    entries.extend(further);
    Json::Object(entries).to_string()
}

fn state(explanation: &Explanation, instance: &Instance) -> Json {
    let Explanation { file, query, .. } = explanation;
    let Instance { facts, frame } = instance;
    let wording = Wording::of(file, frame);
    let objects = (0..facts.objects).map(Object).map(|object| {
        let classes = named::classes(facts, object).into_iter();
        let classes = classes.map(|class| text(file.names.class(class)));
        let constants = facts.facts.iter().filter_map(|&fact| match fact {
            Fact::Name {
                constant,
                object: it,
            } if it == object => Some(text(file.names.constant(constant))),
            _ => None,
        });
        let marks = facts.facts.iter().filter_map(|&fact| match fact {
            Fact::Choice { mark, object: it } if it == object => {
                Some(Json::Text(named::mark(query, mark)))
            }
            _ => None,
        });
        Json::Object(vec![
            ("name", text(wording.object(object))),
            ("classes", list(classes)),
            ("constants", list(constants)),
            ("marks", list(marks)),
        ])
    });
    let pairs = facts.links().map(|link| {
        Json::Object(vec![
            ("attribute", text(file.names.attribute(link.attribute))),
            ("first", text(wording.object(link.first))),
            ("second", text(wording.object(link.second))),
        ])
    });
    Json::Object(vec![
        ("name", text(&frame.name.text)),
        ("objects", list(objects)),
        ("pairs", list(pairs)),
        ("text", Json::Text(print::state(file, frame))),
    ])
}

fn part(file: &File, wording: &Wording, part: &Part) -> Json {
    let misses = part.misses.iter().map(|each| miss(file, wording, each));
    Json::Object(vec![
        ("place", place(file, part.concept.span)),
        ("text", Json::Text(wording.part(&part.concept))),
        ("holds", Json::Truth(part.is_held())),
        ("misses", list(misses)),
    ])
}

fn miss(file: &File, wording: &Wording, miss: &Miss) -> Json {
    let objects = miss
        .objects
        .iter()
        .map(|&object| text(wording.object(object)));
    Json::Object(vec![
        ("place", place(file, miss.span)),
        ("text", Json::Text(wording.asked(miss))),
        ("objects", list(objects)),
        ("why", Json::Text(wording.why(miss))),
    ])
}

fn place(file: &File, span: Span) -> Json {
    let Place {
        file: name,
        line,
        column,
    } = file.source.place(span);
    Json::Object(vec![
        ("file", Json::Text(name)),
        ("line", Json::Number(line)),
        ("column", Json::Number(column)),
    ])
}

fn text(words: &str) -> Json {
    Json::Text(words.to_string())
}

fn list(items: impl Iterator<Item = Json>) -> Json {
    Json::List(items.collect())
}

impl fmt::Display for Json {
    fn fmt(&self, f: &mut fmt::Formatter) -> fmt::Result {
        match self {
            Json::Null => f.write_str("null"),
            Json::Truth(truth) => write!(f, "{truth}"),
            Json::Number(number) => write!(f, "{number}"),
            Json::Text(text) => write_text(f, text),
            Json::List(items) => {
                f.write_char('[')?;
                for (i, item) in items.iter().enumerate() {
                    let comma = if i > 0 { ", " } else { "" };
                    write!(f, "{comma}{item}")?;
                }
                f.write_char(']')
            }
            Json::Object(entries) => {
                f.write_char('{')?;
                for (i, (key, value)) in entries.iter().enumerate() {
                    let comma = if i > 0 { ", " } else { "" };
                    write!(f, "{comma}\"{key}\": {value}")?;
                }
                f.write_char('}')
            }
        }
    }
}

fn write_text(f: &mut fmt::Formatter, text: &str) -> fmt::Result {
    f.write_char('"')?;
    for letter in text.chars() {
        match letter {
            '"' => f.write_str("\\\"")?,
            '\\' => f.write_str("\\\\")?,
            '\n' => f.write_str("\\n")?,
            control if control < ' ' => write!(f, "\\u{:04x}", u32::from(control))?,
            letter => f.write_char(letter)?,
        }
    }
    f.write_char('"')
}
