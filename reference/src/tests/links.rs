//! Links counted by hand: persons 0 to 3 and straps 4 to 6, over wears and
//! lends. A person wears at most one thing, which the state breaks.

use super::write::{axioms_record, fact, facts_record, tokens_record};
use crate::entries::{legal, links_by_first, links_by_second, Legality};

const STRAP: u16 = 0;
const PERSON: u16 = 1;
const WEARS: u16 = 0;
const LENDS: u16 = 1;

fn schema() -> Vec<u16> {
    axioms_record([2, 2, 0], &[(4 * 256 + PERSON, WEARS)])
}

/// Person 0 wears every strap and person 1 two of them, and a strap itself.
fn state() -> Vec<u16> {
    let mut facts = Vec::new();
    facts.extend((4..7).map(|strap| fact(0, strap, 0)));
    facts.extend((0..4).map(|person| fact(1, person, 0)));
    let wears = [(0, 4), (0, 5), (0, 6), (1, 4), (1, 5), (6, 6)];
    facts.extend(wears.map(|(first, second)| fact(24, first, second)));
    let lends = [(0, 1), (5, 1), (5, 2), (6, 2)];
    facts.extend(lends.map(|(first, second)| fact(25, first, second)));
    facts_record(7, &facts)
}

/// A concept's tokens, an attribute and the number of its links.
type Row = (&'static [(u16, u16)], u16, u64);

#[test]
fn counts() {
    let rows: [Row; 9] = [
        // Of 6 pairs, by 2 of the 4 persons, to 3 straps.
        (&[(1, PERSON)], WEARS, 5),
        (&[(1, PERSON)], LENDS, 1),
        (&[(1, STRAP)], WEARS, 1),
        (&[(1, STRAP)], LENDS, 3),
        (&[(2, 0)], WEARS, 6),
        (&[(2, 0)], LENDS, 4),
        // Who wears something; what is worn; nothing.
        (&[(5, 0), (2, 0), (6, WEARS), (8, 0)], LENDS, 2),
        (&[(5, 0), (2, 0), (7, WEARS), (8, 0)], LENDS, 3),
        (&[(1, PERSON), (1, STRAP), (4, 0)], WEARS, 0),
    ];
    assert_eq!(legal(&schema(), &state()), Ok(Legality::Broken(0)));
    for (tokens, attribute, expected) in rows {
        let concept = tokens_record(tokens);
        for links in [links_by_first, links_by_second] {
            let links = links(&schema(), &concept, &state(), attribute);
            assert_eq!(links, Ok(expected), "{tokens:?}, {attribute}");
        }
    }
}

#[test]
fn the_attribute_is_below_the_number_of_attributes() {
    let everything = tokens_record(&[(2, 0)]);
    for links in [links_by_first, links_by_second] {
        let links = |attribute| links(&schema(), &everything, &state(), attribute);
        assert_eq!(links(1), Ok(4));
        for undeclared in [2, 8, 256, 65535] {
            assert_eq!(links(undeclared), Err(12), "{undeclared}");
        }
    }
}
