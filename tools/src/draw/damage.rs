//! Damage to what a call passes. Much of it is refused, some is harmless, and
//! which is for the reference to say.

use super::attribute;
use crate::call::{Call, Place};
use crate::prng::Prng;
use crate::word;
use bikuvoa::layout::token::{self, EMPTY, EVERYTHING, REACHED};
use bikuvoa::layout::{self, fact, Layout, Signature};
use bikuvoa::layout::{CLASS_FACTS, CONCEPT, LOOSE, QUERY_STEPS, STATE, VIEW_STEPS};
use bikuvoa::layout::{MAX_ATTRIBUTES, MAX_CLASSES, MAX_CONSTANTS, MAX_MARKS};
use bikuvoa::layout::{MAX_OBJECTS, MAX_VIEWS};

/// Damages what stands at the place.
pub fn damage(prng: &mut Prng, call: &mut Call, place: Place) {
    match (call.record_mut(place), place.layout()) {
        (Some(words), Some(layout)) => damage_record(prng, place, layout, words),
        (Some(words), None) => damage_catalogue(prng, words),
        (None, _) => damage_number(prng, call, place),
    }
}

fn damage_record(prng: &mut Prng, place: Place, layout: &Layout, words: &mut Vec<u16>) {
    // What is loose is looked at after a schema's shape and before its axioms, so it
    // is damaged alone and beside them.
    if place == Place::Schema && prng.chance(25) {
        loosen_another(prng, words);
        if prng.chance(50) {
            return;
        }
    }
    // So is the count of class facts, after the order of a state's facts and before
    // what constants and marks name. Other damage alters what it has to be, so it comes
    // last.
    let miscounts = place == Place::State && prng.chance(40);
    if !miscounts || prng.chance(60) {
        damage_words(prng, place, layout, words);
    }
    if miscounts {
        miscount(prng, words);
    }
}

fn damage_words(prng: &mut Prng, place: Place, layout: &Layout, words: &mut Vec<u16>) {
    match prng.below(12) {
        0 if place == Place::State => alter_entries(prng, layout, words),
        0..=2 => flip_word(prng, layout.sizes, words),
        3 => cut(prng, words),
        4 => lengthen(prng, words),
        5 => *words = random_words(prng),
        6 | 10 if place == Place::State => name_otherwise(prng, words),
        7..=8 if place == Place::State => choose_another(prng, words),
        6 if matches!(place, Place::Query | Place::View) => put_mark(prng, words),
        6..=8 => alter_entries(prng, layout, words),
        9 => fill(prng, layout, words),
        _ => reach_limit(prng, place, words),
    }
}

/// Damages what is no record: an attribute becomes one that is not declared, as
/// far as the schema still says what is.
fn damage_number(prng: &mut Prng, call: &mut Call, place: Place) {
    match place {
        Place::Attribute => {
            let signature = Signature::of(&call.schema).unwrap_or_default();
            call.attribute = attribute::undeclared(prng, signature);
        }
        Place::Order => call.order = fewer(prng, call.order),
        _ => call.lent = fewer(prng, call.lent),
    }
}

/// Half of the damage is to the views, whose lengths are then those of their
/// records. The rest is to their count, to the lengths and to the layout.
fn damage_catalogue(prng: &mut Prng, words: &mut Vec<u16>) {
    let views = layout::views(words).unwrap_or_default();
    let mut views: Vec<Vec<u16>> = views.into_iter().map(Vec::from).collect();
    if views.is_empty() {
        return lengthen(prng, words);
    }
    match prng.below(16) {
        0 => flip_word(prng, 1, words),
        1 => flip_word(prng, 1, &mut words[1..=views.len()]),
        2 => cut(prng, words),
        3 => lengthen(prng, words),
        4 => *words = random_words(prng),
        5 => move_boundary(prng, words, views.len()),
        6 => lengthen_by_words(prng, words, views.len()),
        7 => *words = layout::catalogue(&[[0; 0]; 0]),
        8..=9 => {
            if prng.chance(50) {
                damage_views(prng, &mut views);
            }
            let last = views[views.len() - 1].clone();
            views.resize(MAX_VIEWS + prng.below(2), last);
            *words = layout::catalogue(&views);
        }
        _ => {
            damage_views(prng, &mut views);
            *words = layout::catalogue(&views);
        }
    }
}

/// Damages one view, and often later ones as well, of which nothing must be told.
fn damage_views(prng: &mut Prng, views: &mut [Vec<u16>]) {
    let first = prng.below(views.len());
    for (place, view) in views.iter_mut().enumerate().skip(first) {
        if place == first || prng.chance(50) {
            damage_record(prng, Place::View, &CONCEPT, view);
        }
    }
}

/// Gives words of one view to another, so that there are as many in all.
fn move_boundary(prng: &mut Prng, words: &mut [u16], views: usize) {
    let (from, to) = (1 + prng.below(views), 1 + prng.below(views));
    let moved = prng.one_of([1, 2, words[from]]).min(words[from]);
    words[from] -= moved;
    words[to] += moved;
}

/// As many words more as a word can tell numbers apart: lengths, or words, or both,
/// so that a sum of 16 bits is as it was. With both, the layout is right.
fn lengthen_by_words(prng: &mut Prng, words: &mut Vec<u16>, views: usize) {
    const MORE: usize = 1 << 16;
    let lengths = views > 1 && prng.chance(80);
    if lengths {
        let (one, other) = (1, 2 + prng.below(views - 1));
        let least = 1 + usize::from(words[other]);
        let more = prng.between(least, usize::from(u16::MAX - words[one]));
        words[one] += word(more);
        words[other] += word(MORE - more);
    }
    if !lengths || prng.chance(30) {
        words.resize(words.len() + MORE, 0);
    }
}

/// Alters one word, by preference one of the size words.
fn flip_word(prng: &mut Prng, sizes: usize, words: &mut [u16]) {
    if words.is_empty() {
        return;
    }
    let sizes = sizes.min(words.len());
    let place = if prng.chance(30) {
        prng.below(sizes)
    } else {
        prng.below(words.len())
    };
    words[place] = match prng.below(5) {
        0 => 0,
        1 => words[place].wrapping_add(1),
        2 => words[place].wrapping_sub(1),
        3 => words[place] ^ 1 << prng.below(16),
        _ => prng.word(),
    };
}

/// Makes another constant loose, or no longer: the lowest that is not declared, the
/// highest that has a bit, or any.
fn loosen_another(prng: &mut Prng, words: &mut [u16]) {
    if let Some(declared) = Signature::of(words) {
        let highest = u16::BITS as u16 - 1;
        let any = prng.word_below(highest + 1);
        words[LOOSE] ^= 1 << prng.one_of([highest.min(declared.constants), highest, any]);
    }
}

/// Counts one class fact more or less, none, as many as there are facts, fewer, or any
/// number, or leaves the count out.
fn miscount(prng: &mut Prng, words: &mut Vec<u16>) {
    let (Some(&facts), Some(count)) = (words.get(STATE.counter), layout::class_facts(words)) else {
        return lengthen(prng, words);
    };
    words[CLASS_FACTS] = match prng.below(10) {
        0..=2 => count.wrapping_add(1),
        3..=5 => count.wrapping_sub(1),
        6 => 0,
        7 => facts,
        8 => prng.word_below(facts.max(1)),
        _ => prng.word(),
    };
    if prng.chance(5) {
        words.remove(CLASS_FACTS);
    }
}

fn cut(prng: &mut Prng, words: &mut Vec<u16>) {
    let most = if prng.chance(50) {
        words.len()
    } else {
        words.len().min(4)
    };
    words.truncate(words.len() - prng.between(0, most));
}

fn lengthen(prng: &mut Prng, words: &mut Vec<u16>) {
    for _ in 0..prng.between(1, 3) {
        words.push(prng.word_below(3));
    }
}

/// Any words, often small ones, since large ones seldom get past the sizes.
fn random_words(prng: &mut Prng) -> Vec<u16> {
    let bound = prng.one_of([2, 4, 9, 600, u16::MAX]);
    (0..prng.below(16))
        .map(|_| prng.word_below(bound))
        .collect()
}

/// Drops, doubles, swaps or alters entries in a record whose length still fits.
fn alter_entries(prng: &mut Prng, layout: &Layout, words: &mut Vec<u16>) {
    let entries = layout.entries(words).map(Vec::from_iter);
    let Some(mut entries) = entries.filter(|entries| !entries.is_empty()) else {
        return flip_word(prng, layout.sizes, words);
    };
    let (one, other) = (prng.below(entries.len()), prng.below(entries.len()));
    match prng.below(4) {
        0 => drop(entries.remove(one)),
        1 => entries.insert(other, entries[one]),
        2 => entries.swap(one, other),
        _ => entries[one] = (entries[one].0, entries[other].1),
    }
    *words = layout.record(words, &entries);
}

/// As many entries as there may be, or one more, by repeating the last.
fn fill(prng: &mut Prng, layout: &Layout, words: &mut Vec<u16>) {
    let Some(mut entries) = layout.entries(words).map(Vec::from_iter) else {
        return lengthen(prng, words);
    };
    let last = entries.last().copied().unwrap_or((0, 0));
    entries.resize(layout.max + prng.below(2), last);
    *words = layout.record(words, &entries);
}

/// A mark, or what would be one above the last, for a leaf of a concept. It may stand
/// in some concepts only, and then the state has no object for it.
fn put_mark(prng: &mut Prng, words: &mut Vec<u16>) {
    let tokens = CONCEPT.entries(words).map(Vec::from_iter);
    let mut tokens = tokens.unwrap_or_default();
    let leaves: Vec<usize> = (0..tokens.len())
        .filter(|&place| token::is_leaf(tokens[place]))
        .collect();
    let Some(place) = prng.pick(&leaves) else {
        return lengthen(prng, words);
    };
    tokens[place] = token::mark(mark_or_more(prng));
    *words = CONCEPT.record(words, &tokens);
}

/// A mark, the lowest number that is none, the highest, or any.
fn mark_or_more(prng: &mut Prng) -> u16 {
    let any = prng.word();
    match prng.below(6) {
        0 => prng.one_of([MAX_MARKS, u16::MAX, any]),
        _ => prng.word_below(MAX_MARKS),
    }
}

/// Has one mark more be an object, or one that is an object already be another as
/// well; now and then of a kind above the last, with a right word, or out of order.
fn choose_another(prng: &mut Prng, words: &mut Vec<u16>) {
    let Some(mut facts) = STATE.entries(words).map(Vec::from_iter) else {
        return lengthen(prng, words);
    };
    let objects = layout::objects(words).unwrap_or_default();
    let mark = prng.word_below(MAX_MARKS + 1);
    let (left, _) = fact::choice(mark, prng.word_below(objects.max(1)));
    let right = u16::from(prng.chance(20));
    facts.push((left, right));
    if prng.chance(80) {
        facts.sort_unstable();
    } else {
        facts.reverse();
    }
    *words = STATE.record(words, &facts);
}

/// Has a constant or a mark name no object, two, or that of another of them, which
/// only two constants that are not loose may not share.
fn name_otherwise(prng: &mut Prng, words: &mut Vec<u16>) {
    let Some(mut facts) = STATE.entries(words).map(Vec::from_iter) else {
        return lengthen(prng, words);
    };
    let is_name = |&place: &usize| fact::kind(facts[place]) >= fact::CONSTANT_KINDS;
    let mut names: Vec<usize> = (0..facts.len()).filter(is_name).collect();
    prng.shuffle(&mut names);
    let (Some(&one), Some(&other)) = (names.first(), names.last()) else {
        return lengthen(prng, words);
    };
    // As if marks were further constants: their kinds follow.
    let number = fact::kind(facts[one]) - fact::CONSTANT_KINDS;
    let name = fact::name(number, fact::object(facts[other]));
    match prng.below(4) {
        0 => drop(facts.remove(one)),
        1 => facts.push(name),
        _ => facts[one] = name,
    }
    facts.sort_unstable();
    *words = STATE.record(words, &facts);
}

/// A size word at its limit or one above it; for a concept, a path of as many
/// steps as a view or a query may have, or of one more.
fn reach_limit(prng: &mut Prng, place: Place, words: &mut Vec<u16>) {
    let above = prng.word_below(2);
    match (place, &mut words[..]) {
        (Place::Schema, [classes, attributes, constants, ..]) => match prng.below(3) {
            0 => *classes = MAX_CLASSES + above,
            1 => *attributes = MAX_ATTRIBUTES + above,
            _ => *constants = MAX_CONSTANTS + above,
        },
        (Place::Query | Place::View, _) => {
            let limit = prng.one_of([VIEW_STEPS, QUERY_STEPS]);
            let mut tokens = vec![EMPTY];
            for _ in 0..limit + usize::from(above) {
                tokens.extend([EVERYTHING, token::forward(0)]);
            }
            tokens.push(REACHED);
            *words = layout::concept(&tokens);
        }
        (Place::State, [objects, ..]) => *objects = MAX_OBJECTS + above,
        _ => {}
    }
}

/// One lent word less, or any lower number.
fn fewer(prng: &mut Prng, lent: usize) -> usize {
    if prng.chance(50) {
        lent.saturating_sub(1)
    } else {
        prng.between(0, lent)
    }
}
