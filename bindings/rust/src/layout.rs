//! The numbers of the record format (docs/RECORDS.md), each written once, and
//! records made from their entries with no check at all. The builders stand on
//! this; use it to write words yourself, or to make faulty ones for a test.
//!
//! A record is a few size words and then two arrays of equal length, the left
//! words and the right words. A left word and the right word at the same place
//! are an entry: an axiom of a schema, a token of a concept, a fact of a state.
//! A catalogue is another sort of record: the records of several views.
//!
//! Nothing here panics. A number too large for its part of a word spills into
//! its neighbour, and the library judges the record that comes of it.

use std::iter::{Copied, Zip};
use std::slice::Iter;

pub const MAX_CLASSES: u16 = 24;
pub const MAX_ATTRIBUTES: u16 = 8;
pub const MAX_CONSTANTS: u16 = 4;
pub const MAX_MARKS: u16 = 4;
pub const MAX_AXIOMS: usize = 96;
pub const MAX_TOKENS: usize = 64;
/// The most steps of a query.
pub const QUERY_STEPS: usize = 16;
/// The most steps of a view.
pub const VIEW_STEPS: usize = 6;
/// The most views of a catalogue.
pub const MAX_VIEWS: usize = 16;
pub const MAX_OBJECTS: u16 = 480;
/// Each object in every class and once the first of a pair of every attribute,
/// a pair for each step of a query, a name for each constant, and an object for
/// each mark.
pub const MAX_FACTS: usize = MAX_OBJECTS as usize * (MAX_CLASSES + MAX_ATTRIBUTES) as usize
    + QUERY_STEPS
    + MAX_CONSTANTS as usize
    + MAX_MARKS as usize;

/// The words of the largest state, which is the least number of words to lend
/// for a decision.
pub const DECIDE_WORDS: usize = STATE.length_for(MAX_FACTS);

/// The left and the right word of an entry.
pub type Pair = (u16, u16);

/// The entries of a record in their order.
pub type Entries<'a> = Zip<Copied<Iter<'a, u16>>, Copied<Iter<'a, u16>>>;

/// The shape of one sort of record.
#[derive(Clone, Copy, Debug)]
#[non_exhaustive]
pub struct Layout {
    /// How many size words there are.
    pub sizes: usize,
    /// Which of them, from 0, counts the entries.
    pub counter: usize,
    /// How many entries there may be.
    pub max: usize,
}

/// Size words: classes, attributes, constants, axioms, loose constants.
pub const SCHEMA: Layout = Layout {
    sizes: 5,
    counter: 3,
    max: MAX_AXIOMS,
};
/// The place of the loose constants among a schema's size words.
pub const LOOSE: usize = 4;

/// Size words: tokens, steps.
pub const CONCEPT: Layout = Layout {
    sizes: 2,
    counter: 0,
    max: MAX_TOKENS,
};
/// The place of the count of steps among a concept's size words.
pub const STEPS: usize = 1;

/// Size words: objects, facts, class facts.
pub const STATE: Layout = Layout {
    sizes: 3,
    counter: 1,
    max: MAX_FACTS,
};
/// The place of the count of class facts among a state's size words.
pub const CLASS_FACTS: usize = 2;

impl Layout {
    /// How many words a record with so many entries has.
    pub const fn length_for(&self, entries: usize) -> usize {
        self.sizes + 2 * entries
    }

    /// How many words the record has with which the words begin, by its own
    /// count; nothing if the count is missing. There may be fewer words.
    pub fn length(&self, words: &[u16]) -> Option<usize> {
        let entries = *words.get(self.counter)?;
        Some(self.length_for(entries.into()))
    }

    /// The entries, if the record's length fits its count; it may be faulty in
    /// any other way.
    pub fn entries<'a>(&self, words: &'a [u16]) -> Option<Entries<'a>> {
        let arrays = words.get(self.sizes..)?;
        if self.length(words)? != words.len() {
            return None;
        }
        let (lefts, rights) = arrays.split_at(arrays.len() / 2);
        Some(lefts.iter().copied().zip(rights.iter().copied()))
    }

    /// A record with these size words, of which the count of the entries is set
    /// right, and these entries. Missing size words are 0, and further words are
    /// not used.
    pub fn record(&self, sizes: &[u16], entries: &[Pair]) -> Vec<u16> {
        let mut words: Vec<u16> = sizes.iter().copied().take(self.sizes).collect();
        words.resize(self.sizes, 0);
        words[self.counter] = entries.len() as u16;
        words.extend(entries.iter().map(|&(left, _)| left));
        words.extend(entries.iter().map(|&(_, right)| right));
        words
    }
}

/// How many classes, attributes and constants a schema declares. They are
/// numbered from 0.
#[derive(Clone, Copy, Debug, Default, PartialEq, Eq)]
pub struct Signature {
    pub classes: u16,
    pub attributes: u16,
    pub constants: u16,
    /// The loose constants: bit k, from the lowest, marks constant k, which may
    /// then name the same object as any other constant.
    pub loose: u16,
}

impl Signature {
    /// What a schema record declares, if it has its size words.
    pub fn of(schema: &[u16]) -> Option<Self> {
        let &[classes, attributes, constants, ..] = schema.get(..SCHEMA.sizes)? else {
            return None;
        };
        Some(Signature {
            classes,
            attributes,
            constants,
            loose: schema[LOOSE],
        })
    }

    /// Whether the constant is marked loose.
    pub fn is_loose(self, constant: u16) -> bool {
        constant < 16 && self.loose >> constant & 1 == 1
    }
}

pub fn schema(signature: Signature, axioms: &[Pair]) -> Vec<u16> {
    let Signature {
        classes,
        attributes,
        constants,
        loose,
    } = signature;
    let mut words = SCHEMA.record(&[classes, attributes, constants], axioms);
    words[LOOSE] = loose;
    words
}

/// A concept record, which counts its steps.
pub fn concept(tokens: &[Pair]) -> Vec<u16> {
    let steps = tokens.iter().filter(|&&token| token::is_step(token));
    let mut words = CONCEPT.record(&[], tokens);
    words[STEPS] = steps.count() as u16;
    words
}

/// A state record, which counts its class facts, with the facts in the order in which
/// they are given.
pub fn state(objects: u16, facts: &[Pair]) -> Vec<u16> {
    let class_facts = facts.iter().filter(|&&fact| fact::is_class_fact(fact));
    let mut words = STATE.record(&[objects], facts);
    words[CLASS_FACTS] = class_facts.count() as u16;
    words
}

/// How many objects a state record has, if it says so.
pub fn objects(state: &[u16]) -> Option<u16> {
    state.first().copied()
}

/// How many class facts a state record has, if it says so. They come first if the
/// facts ascend.
pub fn class_facts(state: &[u16]) -> Option<u16> {
    state.get(CLASS_FACTS).copied()
}

/// A catalogue record: how many views there are, the length of each in words, and
/// then their records.
pub fn catalogue<V: AsRef<[u16]>>(views: &[V]) -> Vec<u16> {
    let views = views.iter().map(AsRef::as_ref);
    let mut words = vec![views.len() as u16];
    words.extend(views.clone().map(|view| view.len() as u16));
    words.extend(views.flatten());
    words
}

/// The records of a catalogue's views, if its length fits their count and their
/// lengths; there may be too many of them, and each may be faulty.
pub fn views(catalogue: &[u16]) -> Option<Vec<&[u16]>> {
    let (&count, rest) = catalogue.split_first()?;
    let (lengths, mut rest) = rest.split_at_checked(count.into())?;
    let mut views = Vec::new();
    for &length in lengths {
        let (view, later) = rest.split_at_checked(length.into())?;
        views.push(view);
        rest = later;
    }
    rest.is_empty().then_some(views)
}

/// A word of two numbers, the second of which is below `part`.
const fn join(first: u16, second: u16, part: u16) -> u16 {
    first.wrapping_mul(part).wrapping_add(second)
}

/// The words of an axiom.
pub mod axiom {
    use super::{join, Pair};

    pub const SUBCLASS: u16 = 1;
    pub const TYPING: u16 = 2;
    pub const NECESSARY: u16 = 3;
    pub const SINGLE: u16 = 4;
    pub const RELATES: u16 = 5;

    /// The second number of a word is below this.
    const BYTE_PART: u16 = 256;

    /// Each object of the class is in the superclass.
    pub const fn subclass(class: u16, superclass: u16) -> Pair {
        (join(SUBCLASS, class, BYTE_PART), superclass)
    }

    /// Each value of the attribute at an object of the class is in `values`.
    pub const fn typing(class: u16, attribute: u16, values: u16) -> Pair {
        let right = join(attribute, values, BYTE_PART);
        (join(TYPING, class, BYTE_PART), right)
    }

    /// Each object of the class has a value of the attribute.
    pub const fn necessary(class: u16, attribute: u16) -> Pair {
        (join(NECESSARY, class, BYTE_PART), attribute)
    }

    /// Each object of the class has at most one value of the attribute.
    pub const fn single(class: u16, attribute: u16) -> Pair {
        (join(SINGLE, class, BYTE_PART), attribute)
    }

    /// In each pair of the attribute the first object is in the domain and the
    /// second in the range.
    pub const fn relates(attribute: u16, domain: u16, range: u16) -> Pair {
        let right = join(domain, range, BYTE_PART);
        (join(RELATES, attribute, BYTE_PART), right)
    }

    pub const fn kind((left, _): Pair) -> u16 {
        left / BYTE_PART
    }

    pub const fn subject((left, _): Pair) -> u16 {
        left % BYTE_PART
    }

    /// The two numbers of the right word, for kinds that have two.
    pub const fn two((_, right): Pair) -> (u16, u16) {
        (right / BYTE_PART, right % BYTE_PART)
    }
}

/// The words of a token. A token without an argument is a whole entry here; of
/// one with an argument this names the sort.
pub mod token {
    use super::Pair;

    pub const CLASS: u16 = 1;
    pub const EVERYTHING: Pair = (2, 0);
    pub const CONSTANT: u16 = 3;
    pub const BOTH: Pair = (4, 0);
    pub const EMPTY: Pair = (5, 0);
    pub const FORWARD: u16 = 6;
    pub const BACKWARD: u16 = 7;
    pub const REACHED: Pair = (8, 0);
    pub const COMMON: Pair = (9, 0);
    pub const MARK: u16 = 10;

    pub const fn class(number: u16) -> Pair {
        (CLASS, number)
    }

    pub const fn constant(number: u16) -> Pair {
        (CONSTANT, number)
    }

    /// A query for a decision or a counterexample may have marks, and no other
    /// concept.
    pub const fn mark(number: u16) -> Pair {
        (MARK, number)
    }

    pub const fn forward(attribute: u16) -> Pair {
        (FORWARD, attribute)
    }

    pub const fn backward(attribute: u16) -> Pair {
        (BACKWARD, attribute)
    }

    /// Whether the token puts a concept and takes nothing for it.
    pub const fn is_leaf((sort, _): Pair) -> bool {
        sort == CLASS || sort == EVERYTHING.0 || sort == CONSTANT || sort == MARK
    }

    pub const fn is_step((sort, _): Pair) -> bool {
        matches!(sort, FORWARD | BACKWARD)
    }
}

/// The words of a fact. The kinds are the classes, then the attributes, then
/// the constants, then the marks.
pub mod fact {
    use super::{join, Pair, MAX_ATTRIBUTES, MAX_CLASSES, MAX_CONSTANTS, MAX_MARKS};

    /// The first kind of an attribute.
    pub const ATTRIBUTE_KINDS: u16 = MAX_CLASSES;
    /// The first kind of a constant.
    pub const CONSTANT_KINDS: u16 = ATTRIBUTE_KINDS + MAX_ATTRIBUTES;
    /// The first kind of a mark.
    pub const MARK_KINDS: u16 = CONSTANT_KINDS + MAX_CONSTANTS;
    /// Every kind is below this.
    pub const FACT_KINDS: u16 = MARK_KINDS + MAX_MARKS;

    /// The object in a left word is below this.
    const OBJECT_PART: u16 = 512;

    /// The object is in the class.
    pub const fn member(class: u16, object: u16) -> Pair {
        (join(class, object, OBJECT_PART), 0)
    }

    /// The second object is a value of the attribute at the first.
    pub const fn pair(attribute: u16, first: u16, second: u16) -> Pair {
        let kind = ATTRIBUTE_KINDS.wrapping_add(attribute);
        (join(kind, first, OBJECT_PART), second)
    }

    /// The constant names the object.
    pub const fn name(constant: u16, object: u16) -> Pair {
        let kind = CONSTANT_KINDS.wrapping_add(constant);
        (join(kind, object, OBJECT_PART), 0)
    }

    /// The mark is the object.
    pub const fn choice(mark: u16, object: u16) -> Pair {
        let kind = MARK_KINDS.wrapping_add(mark);
        (join(kind, object, OBJECT_PART), 0)
    }

    pub const fn kind((left, _): Pair) -> u16 {
        left / OBJECT_PART
    }

    /// Whether it is a fact of a class.
    pub const fn is_class_fact(fact: Pair) -> bool {
        kind(fact) < ATTRIBUTE_KINDS
    }

    /// The object in the left word.
    pub const fn object((left, _): Pair) -> u16 {
        left % OBJECT_PART
    }
}
