//! The tables, as Markdown.

use crate::drawn::CALLS;
use bikuvoa::layout::MAX_VIEWS;
use tools::call::Entry;
use tools::draw::triple::Marks;
use tools::inputs::Size;

/// An input with its times in nanoseconds.
pub struct Row {
    pub entry: Entry,
    pub size: &'static str,
    pub words: usize,
    pub proved: f64,
    pub reference: f64,
}

pub fn print_calls(rows: &[Row]) {
    println!("| entry | input | words | proved | reference | reference / proved |");
    println!("|---|---|--:|--:|--:|--:|");
    for row in rows {
        println!(
            "| {} | {} | {} | {} | {} | {:.1} |",
            row.entry.name,
            row.size,
            row.words,
            time(row.proved),
            time(row.reference),
            row.reference / row.proved
        );
    }
}

/// Random calls of an entry, with the words and the times in nanoseconds of each.
pub struct Random {
    pub entry: Entry,
    pub marks: Marks,
    pub words: Vec<usize>,
    pub proved: Vec<f64>,
    pub reference: Vec<f64>,
}

pub fn print_random(rows: &[Random]) {
    println!();
    println!(
        "| {CALLS} random calls of | words | mean, proved | mean, reference | reference / proved \
         | median, proved | median, reference | reference / proved | proved is faster in |"
    );
    println!("|---|--:|--:|--:|--:|--:|--:|--:|--:|");
    for row in rows {
        let marks = match row.marks {
            Marks::Without => "",
            Marks::With => ", marks",
        };
        print!("| {}{marks} | {} |", row.entry.name, range(&row.words));
        for of in [mean, median] {
            let (proved, reference) = (of(&row.proved), of(&row.reference));
            let ratio = reference / proved;
            print!(" {} | {} | {ratio:.1} |", time(proved), time(reference));
        }
        let pairs = row.proved.iter().zip(&row.reference);
        let faster = pairs.filter(|(proved, reference)| proved < reference);
        println!(" {} |", faster.count());
    }
}

/// The least and the most.
fn range(numbers: &[usize]) -> String {
    match (numbers.iter().min(), numbers.iter().max()) {
        (Some(least), Some(most)) => format!("{least} to {most}"),
        _ => String::new(),
    }
}

fn mean(times: &[f64]) -> f64 {
    times.iter().sum::<f64>() / times.len() as f64
}

/// The upper one of two in the middle.
fn median(times: &[f64]) -> f64 {
    let mut times = times.to_vec();
    times.sort_by(f64::total_cmp);
    times[times.len() / 2]
}

pub fn print_growth(rows: &[Row]) {
    println!();
    println!("| from small to largest | words | proved | reference |");
    println!("|---|--:|--:|--:|");
    for &entry in Entry::ALL {
        let of_size = |size: Size| {
            rows.iter()
                .find(|row| row.entry == entry && row.size == size.name())
        };
        if let (Some(small), Some(largest)) = (of_size(Size::Small), of_size(Size::Largest)) {
            println!(
                "| {} | ×{:.0} | ×{:.0} | ×{:.0} |",
                entry.name,
                largest.words as f64 / small.words as f64,
                largest.proved / small.proved,
                largest.reference / small.reference
            );
        }
    }
}

/// A count of links with its result, its time and that of select in nanoseconds.
pub struct Beside {
    pub entry: Entry,
    pub size: &'static str,
    pub links: u64,
    pub counted: f64,
    pub selected: f64,
}

pub fn print_beside_select(rows: &[Beside]) {
    println!();
    println!(
        "| beside select with the same concept and state | input | links | count | select \
         | count / select |"
    );
    println!("|---|---|--:|--:|--:|--:|");
    for row in rows {
        println!(
            "| {} | {} | {} | {} | {} | {:.2} |",
            row.entry.name,
            row.size,
            row.links,
            time(row.counted),
            time(row.selected),
            row.counted / row.selected
        );
    }
}

/// A catalogue with its number of groups and its time, and how many calls for its
/// pairs with their time, in nanoseconds.
pub struct Pairs {
    pub size: &'static str,
    pub groups: u64,
    pub entry: Entry,
    pub calls: usize,
    pub catalogue: f64,
    pub each: f64,
}

pub fn print_beside_pairs(rows: &[Pairs]) {
    println!();
    println!(
        "| {MAX_VIEWS} views, beside calls for their pairs | groups | catalogue | calls | time of \
         the calls | catalogue / calls |"
    );
    println!("|---|--:|--:|---|--:|--:|");
    for row in rows {
        println!(
            "| {} | {} | {} | {} of {} | {} | {:.2} |",
            row.size,
            row.groups,
            time(row.catalogue),
            row.calls,
            row.entry.name,
            time(row.each),
            row.catalogue / row.each
        );
    }
}

pub fn print_nesting(nested: f64, flat: f64) {
    println!();
    println!("| select, largest, 64 tokens | 15 nested common objects | flat | nested / flat |");
    println!("|---|--:|--:|--:|");
    let ratio = nested / flat;
    println!(
        "| proved | {} | {} | {ratio:.2} |",
        time(nested),
        time(flat)
    );
}

/// A time to three figures in the unit that suits it.
fn time(nanoseconds: f64) -> String {
    let (value, unit) = match nanoseconds {
        ns if ns < 1e3 => (ns, "ns"),
        ns if ns < 1e6 => (ns / 1e3, "µs"),
        ns => (ns / 1e6, "ms"),
    };
    let digits = match value {
        value if value < 10.0 => 2,
        value if value < 100.0 => 1,
        _ => 0,
    };
    format!("{value:.digits$} {unit}")
}
