//! The explanation as text, for reading.

use super::fails::Miss;
use super::instance::OBJECT;
use super::wording::Wording;
use super::{Explanation, Held, Open, OtherWay};
use crate::model::{File, Node};
use crate::print;
use bikuvoa::layout::VIEW_STEPS;

/// A line of a table: whether, where, what and why.
struct Row {
    verdict: &'static str,
    place: String,
    what: String,
    why: String,
}

pub fn open(explanation: &Explanation, open: &Open) -> String {
    let Explanation {
        file, query, view, ..
    } = explanation;
    let (query, view) = (&query.name.text, &view.name.text);
    let object = Wording::of(file, &open.instance.frame)
        .object(OBJECT)
        .to_string();
    let state = print::state(file, &open.instance.frame);
    let (first, rest) = state.split_once('\n').unwrap_or((&state, ""));
    let legal = format!("      -- legal; {object} is in {query} and not in {view}");
    let fails = table(&rows(file, open));
    let title = explanation.title();
    format!("{title}\n{first}{legal}\n{rest}{object} fails in {view}:\n{fails}")
}

fn rows(file: &File, open: &Open) -> Vec<Row> {
    let wording = Wording::of(file, &open.instance.frame);
    let place = |span| file.source.place(span).to_string();
    let mut rows = Vec::new();
    for part in &open.parts {
        let mut row = Row {
            verdict: if part.is_held() { "yes" } else { "NO" },
            place: place(part.concept.span),
            what: wording.part(&part.concept),
            why: String::new(),
        };
        // Of a class the line itself says as much.
        let misses = match part.concept.node {
            Node::Class(_) => &[],
            _ => part.misses.as_slice(),
        };
        let begins = |miss: &&Miss| miss.span.start == part.concept.span.start;
        let first = misses.first().filter(begins);
        row.why = first.map_or_else(String::new, |miss| wording.why(miss));
        rows.push(row);
        let others = misses.iter().skip(usize::from(first.is_some()));
        rows.extend(others.map(|miss| Row {
            verdict: "",
            place: place(miss.span),
            what: wording.asked(miss),
            why: wording.why(miss),
        }));
    }
    rows
}

/// The rows in columns, one line each, without a last newline.
fn table(rows: &[Row]) -> String {
    let places = width(rows.iter().map(|row| row.place.as_str()));
    let explained = rows.iter().filter(|row| !row.why.is_empty());
    let whats = width(explained.map(|row| row.what.as_str()));
    let lines = rows.iter().map(|row| {
        let Row {
            verdict,
            place,
            what,
            why,
        } = row;
        let line = format!("  {verdict:<3}  {place:<places$}  {what:<whats$}  {why}");
        line.trim_end().to_string()
    });
    lines.collect::<Vec<_>>().join("\n")
}

fn width<'a>(column: impl Iterator<Item = &'a str>) -> usize {
    column.map(|text| text.chars().count()).max().unwrap_or(0)
}

pub fn held(explanation: &Explanation, held: &Held) -> String {
    let query = &explanation.query.name.text;
    let mut lines = vec![explanation.title()];
    if held.is_empty == Some(true) {
        lines.push(format!(
            "  {query} is empty in every legal state: any view holds it"
        ));
    }
    lines.extend(axioms(explanation, held));
    lines.push(format!("  {}", parts(explanation, held)));
    lines.push(format!("  {}", other_way(explanation, held)));
    lines.join("\n")
}

fn axioms(explanation: &Explanation, held: &Held) -> Vec<String> {
    let file = &explanation.file;
    let stated = file.axioms.iter().zip(&held.needed.axioms);
    let needed = stated
        .filter(|(_, &needed)| needed)
        .map(|(stated, _)| stated);
    let needed: Vec<(String, String)> = needed
        .map(|stated| {
            let place = file.source.place(stated.span).to_string();
            (place, print::axiom(&file.names, stated.axiom))
        })
        .collect();
    let (some, all) = (needed.len(), file.axioms.len());
    let head = match (some, held.needed.is_only_way) {
        (0, _) => "  from no axiom".to_string(),
        (1, true) => format!("  from 1 of {all} axioms; without this one it is OPEN"),
        (_, true) => format!("  from {some} of {all} axioms; without any one of them it is OPEN"),
        (_, false) => {
            format!("  from {some} of {all} axioms, of which none can be left out; others would do as well")
        }
    };
    let places = width(needed.iter().map(|(place, _)| place.as_str()));
    let lines = needed
        .iter()
        .map(|(place, axiom)| format!("    {place:<places$}  {axiom}"));
    std::iter::once(head).chain(lines).collect()
}

fn parts(explanation: &Explanation, held: &Held) -> String {
    let query = &explanation.query;
    let listed = |wanted: bool| {
        let parts = query.concept.parts().iter().zip(&held.needed.parts);
        let parts = parts.filter(|(_, &needed)| needed == wanted);
        let texts = parts.map(|(part, _)| print::part(&explanation.file.names, &query.marks, part));
        texts.collect::<Vec<_>>().join("; ")
    };
    let name = &query.name.text;
    match (listed(true), listed(false)) {
        (needed, none) if none.is_empty() => format!("of {name} all is needed: {needed}"),
        (none, unneeded) if none.is_empty() => format!("of {name} nothing is needed: {unneeded}"),
        (needed, unneeded) => format!("of {name} needed: {needed}; not needed: {unneeded}"),
    }
}

fn other_way(explanation: &Explanation, held: &Held) -> String {
    let query = &explanation.query.name.text;
    match held.other_way {
        OtherWay::Held => "The other way HELD: the list is the answer itself.".to_string(),
        OtherWay::Open => format!("The other way OPEN: filter the list by {query}."),
        OtherWay::HasMarks => format!(
            "The other way cannot be asked, since {query} has marks and a view has none: filter the list by {query}."
        ),
        OtherWay::HasSteps(steps) => format!(
            "The other way cannot be asked, since {query} has {steps} steps and a view at most {VIEW_STEPS}: filter the list by {query}."
        ),
    }
}
