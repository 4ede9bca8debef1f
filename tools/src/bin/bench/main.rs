//! Measures the proved code and the reference on the same inputs and prints
//! tables in the form of docs/BENCHMARKS.md. With an entry and an input, as the
//! tables name them, it only calls the proved code, for tools/profile to watch.

mod drawn;
mod measured;
mod table;
mod timing;

use bikuvoa::layout::{self, MAX_OBJECTS};
use measured::Input;
use std::time::{Duration, Instant};
use table::{Beside, Pairs, Random, Row};
use timing::{OF_MANY_INPUTS, OF_ONE_INPUT};
use tools::answer::{Answerer, Room};
use tools::call::{Call, Entry};
use tools::draw::triple::Marks;
use tools::proved::Proved;

/// How long calls are repeated at least.
const SPELL: Duration = Duration::from_secs(2);

fn main() -> Result<(), String> {
    let arguments: Vec<String> = std::env::args().skip(1).collect();
    match &arguments[..] {
        [] => print_tables(),
        [entry, input] => repeat(&measured::named(entry, input)?),
        _ => Err("bench [ENTRY INPUT]".to_string()),
    }
}

fn repeat(calls: &[Call]) -> Result<(), String> {
    let calls = calls.iter().map(timing::proved);
    let mut calls: Vec<_> = calls.collect::<Result<_, _>>()?;
    let start = Instant::now();
    while start.elapsed() < SPELL {
        calls.iter_mut().for_each(|call| call());
    }
    Ok(())
}

fn print_tables() -> Result<(), String> {
    let inputs = measured::by_entry_and_size();
    let rows = inputs.iter().map(measure);
    let rows: Vec<Row> = rows.collect::<Result<_, _>>()?;
    table::print_calls(&rows);
    table::print_growth(&rows);
    let unmarked = Entry::ALL.iter().map(|&entry| (entry, Marks::Without));
    let marked = Entry::ALL.iter().filter(|entry| entry.takes_marks);
    let marked = marked.map(|&entry| (entry, Marks::With));
    let random = unmarked.chain(marked);
    let random = random.map(|(entry, marks)| measure_random(entry, marks));
    let random: Vec<Random> = random.collect::<Result<_, _>>()?;
    table::print_random(&random);
    let beside = measured::beside_select();
    let beside = beside.iter().map(measure_beside);
    let beside: Vec<Beside> = beside.collect::<Result<_, _>>()?;
    table::print_beside_select(&beside);
    let catalogues = measured::beside_pairs();
    let pairs = catalogues.iter().flat_map(|input| {
        let entries = [Entry::Decide, Entry::Holds];
        entries.map(|entry| measure_pairs(input, entry))
    });
    let pairs: Vec<Pairs> = pairs.collect::<Result<_, _>>()?;
    table::print_beside_pairs(&pairs);
    let (nested, flat) = (measured::nested(), measured::flat());
    let (nested, flat) = (timing::proved(&nested)?, timing::proved(&flat)?);
    let (nested, flat) = timing::in_turn(OF_ONE_INPUT, nested, flat);
    table::print_nesting(nested, flat);
    Ok(())
}

fn measure(input: &Input) -> Result<Row, String> {
    let call = &input.call;
    let (proved, reference) = (timing::proved(call)?, timing::reference(call));
    let (proved, reference) = timing::in_turn(OF_ONE_INPUT, proved, reference);
    Ok(Row {
        entry: call.entry,
        size: input.size,
        words: call.words(),
        proved,
        reference,
    })
}

fn measure_random(entry: Entry, marks: Marks) -> Result<Random, String> {
    let calls = drawn::calls(entry, marks);
    let times = calls.iter().map(|call| {
        let (proved, reference) = (timing::proved(call)?, timing::reference(call));
        Ok(timing::in_turn(OF_MANY_INPUTS, proved, reference))
    });
    let (proved, reference) = times.collect::<Result<_, String>>()?;
    Ok(Random {
        entry,
        marks,
        words: calls.iter().map(Call::words).collect(),
        proved,
        reference,
    })
}

/// A count of links, and select with the same concept and state.
fn measure_beside(input: &Input) -> Result<Beside, String> {
    let call = &input.call;
    let select = Call {
        entry: Entry::Select,
        lent: (Entry::Select.least_lent)(MAX_OBJECTS.into()),
        ..call.clone()
    };
    let mut room = Room::of(call);
    Proved.answer(call, room.out());
    let (counted, selected) = (timing::proved(call)?, timing::proved(&select)?);
    let (counted, selected) = timing::in_turn(OF_ONE_INPUT, counted, selected);
    Ok(Beside {
        entry: call.entry,
        size: input.size,
        links: room.outs[0],
        counted,
        selected,
    })
}

/// A catalogue, and a call of decide for each ordered pair of its views, or of holds
/// for each pair of two different ones.
fn measure_pairs(input: &Input, entry: Entry) -> Result<Pairs, String> {
    let call = &input.call;
    let views = layout::views(&call.catalogue).ok_or("a catalogue of another layout")?;
    let pairs = views.iter().enumerate().flat_map(|(first, &query)| {
        let others = views.iter().enumerate();
        let others = others.filter(move |&(second, _)| entry == Entry::Decide || first != second);
        others.map(move |(_, &view)| Call {
            entry,
            query: query.to_vec(),
            view: view.to_vec(),
            lent: (entry.least_lent)(0),
            ..call.clone()
        })
    });
    let pairs: Vec<Call> = pairs.collect();
    let mut room = Room::of(call);
    Proved.answer(call, room.out());
    let (catalogue, each) = (timing::proved(call)?, timing::all_proved(&pairs)?);
    let (catalogue, each) = timing::in_turn(OF_ONE_INPUT, catalogue, each);
    Ok(Pairs {
        size: input.size,
        groups: room.outs[0],
        entry,
        calls: pairs.len(),
        catalogue,
        each,
    })
}
