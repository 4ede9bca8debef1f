//! Time per call: the best of many short rounds, since other work on the
//! machine can only add to it.

use std::hint::black_box;
use std::time::{Duration, Instant};
use tools::answer::{Answerer, Room};
use tools::call::Call;
use tools::proved::Proved;

/// How many rounds there are, and how long each lasts at least: short enough
/// that some round goes by without the machine turning to other work.
pub struct Rounds {
    count: usize,
    least: Duration,
}

pub const OF_ONE_INPUT: Rounds = Rounds {
    count: 61,
    least: Duration::from_millis(3),
};
/// Of an input that is one of many, where what is amiss with one hardly counts.
pub const OF_MANY_INPUTS: Rounds = Rounds {
    count: 21,
    least: Duration::from_micros(200),
};

/// Nanoseconds for each of two calls. Their rounds take turns, so that a slow
/// spell of the machine meets both.
pub fn in_turn(rounds: Rounds, mut one: impl FnMut(), mut other: impl FnMut()) -> (f64, f64) {
    let ones = calls_in_a_round(rounds.least, &mut one);
    let others = calls_in_a_round(rounds.least, &mut other);
    let mut best = (f64::INFINITY, f64::INFINITY);
    for _ in 0..rounds.count {
        best.0 = best.0.min(per_call(&mut one, ones));
        best.1 = best.1.min(per_call(&mut other, others));
    }
    best
}

fn per_call(call: &mut impl FnMut(), calls: u32) -> f64 {
    let start = Instant::now();
    (0..calls).for_each(|_| call());
    start.elapsed().as_secs_f64() * 1e9 / f64::from(calls)
}

/// Doubles the calls until they fill a round, which also warms the caches.
fn calls_in_a_round(least: Duration, call: &mut impl FnMut()) -> u32 {
    let mut calls = 1;
    loop {
        let start = Instant::now();
        (0..calls).for_each(|_| call());
        if start.elapsed() >= least {
            return calls;
        }
        calls *= 2;
    }
}

/// The call, ready to be put to the proved code. A refused one does too little
/// to be worth measuring.
pub fn proved(call: &Call) -> Result<impl FnMut() + '_, String> {
    let mut room = Room::of(call);
    let mut answer = move |call| Proved.answer(call, room.out());
    check_accepted(call, answer(call))?;
    Ok(move || keep(answer(black_box(call))))
}

fn check_accepted(call: &Call, number: u16) -> Result<(), String> {
    match number {
        0 => Ok(()),
        number => Err(format!("{} is refused as {number}", call.entry.name)),
    }
}

/// Calls that need as many lent words, one after the other, with the same words.
pub fn all_proved(calls: &[Call]) -> Result<impl FnMut() + '_, String> {
    let mut room = Room::of(calls.first().ok_or("no call to measure")?);
    let mut answer = move |call| Proved.answer(call, room.out());
    for call in calls {
        check_accepted(call, answer(call))?;
    }
    Ok(move || {
        for call in black_box(calls) {
            keep(answer(call));
        }
    })
}

/// The call, ready to be put to the reference.
pub fn reference(call: &Call) -> impl FnMut() + '_ {
    let mut room = Room::of(call);
    move || keep((call.entry.reference)(black_box(call), room.out()))
}

/// Makes the compiler work the answer out although nothing uses it.
fn keep<T>(answer: T) {
    black_box(answer);
}
