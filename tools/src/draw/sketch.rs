//! A state under construction, whose objects may still turn out to be one.

use super::state::State;
use crate::prng::Prng;
use crate::word;
use bikuvoa::layout::{fact, Signature};
use reference::syntax::{Concept, Direction, Path};
use std::collections::{BTreeMap, BTreeSet};

/// Two constants, neither of them loose, would be one object.
#[derive(Debug)]
pub(super) struct Clash;

#[derive(Clone)]
pub(super) struct Sketch {
    signature: Signature,
    /// For each object the one that it was merged into, or itself.
    merged: Vec<usize>,
    /// For each object its classes, one bit each.
    classes: Vec<u32>,
    /// Attribute, first and second object.
    pairs: BTreeSet<(u16, usize, usize)>,
    constants: Vec<usize>,
    /// The object of each mark that has one.
    marks: BTreeMap<usize, usize>,
}

impl Sketch {
    /// An object for each constant and nothing else.
    pub(super) fn new(signature: Signature) -> Self {
        let constants: Vec<usize> = (0..signature.constants.into()).collect();
        Sketch {
            signature,
            merged: constants.clone(),
            classes: vec![0; constants.len()],
            pairs: BTreeSet::new(),
            constants,
            marks: BTreeMap::new(),
        }
    }

    pub(super) fn signature(&self) -> Signature {
        self.signature
    }

    pub(super) fn add_object(&mut self) -> usize {
        self.merged.push(self.merged.len());
        self.classes.push(0);
        self.merged.len() - 1
    }

    /// The objects, without those that were merged into others.
    pub(super) fn objects(&self) -> Vec<usize> {
        let all = 0..self.merged.len();
        all.filter(|&object| self.merged[object] == object)
            .collect()
    }

    /// The object that now stands for this one.
    pub(super) fn present(&self, mut object: usize) -> usize {
        while self.merged[object] != object {
            object = self.merged[object];
        }
        object
    }

    pub(super) fn is_in(&self, object: usize, class: usize) -> bool {
        self.classes[self.present(object)] >> class & 1 == 1
    }

    /// Puts the object in the class; tells whether it was not there.
    pub(super) fn enter(&mut self, object: usize, class: usize) -> bool {
        let object = self.present(object);
        let before = self.classes[object];
        self.classes[object] |= 1 << class;
        self.classes[object] != before
    }

    pub(super) fn relate(&mut self, attribute: u16, first: usize, second: usize) {
        let (first, second) = (self.present(first), self.present(second));
        self.pairs.insert((attribute, first, second));
    }

    pub(super) fn values(&self, attribute: u16, object: usize) -> Vec<usize> {
        self.pairs
            .range((attribute, object, 0)..=(attribute, object, usize::MAX))
            .map(|&(_, _, second)| second)
            .collect()
    }

    pub(super) fn pairs(&self) -> Vec<(u16, usize, usize)> {
        self.pairs.iter().copied().collect()
    }

    /// The constants that name the object.
    pub(super) fn names(&self, object: usize) -> impl Iterator<Item = u16> + '_ {
        let constants = (0..).zip(&self.constants);
        let names = constants.filter(move |&(_, &named)| named == object);
        names.map(|(constant, _)| constant)
    }

    /// Whether a constant names the object that is not loose.
    fn is_fixed(&self, object: usize) -> bool {
        self.names(object)
            .any(|constant| !self.signature.is_loose(constant))
    }

    /// Makes two objects one.
    pub(super) fn merge(&mut self, one: usize, other: usize) -> Result<(), Clash> {
        let (one, other) = (self.present(one), self.present(other));
        if one == other {
            return Ok(());
        }
        if self.is_fixed(one) && self.is_fixed(other) {
            return Err(Clash);
        }
        let rename = |object| if object == other { one } else { object };
        self.merged[other] = one;
        self.classes[one] |= self.classes[other];
        self.pairs = self
            .pairs
            .iter()
            .map(|&(attribute, first, second)| (attribute, rename(first), rename(second)))
            .collect();
        for named in self.constants.iter_mut().chain(self.marks.values_mut()) {
            *named = rename(*named);
        }
        Ok(())
    }

    /// Has some loose constants name the objects of others.
    pub(super) fn share(&mut self, prng: &mut Prng) {
        for constant in 0..self.signature.constants {
            if self.signature.is_loose(constant) && prng.chance(40) {
                let one = self.constants[usize::from(constant)];
                let other = self.constants[prng.below(self.constants.len())];
                // What is the object of another one already may not become this
                // one as well; then it stays as it is.
                let _ = self.merge(one, other);
            }
        }
    }

    /// Gives some of the marks any object.
    pub(super) fn choose(&mut self, prng: &mut Prng, marks: &BTreeSet<usize>) {
        let objects = self.objects();
        for &mark in marks {
            if prng.chance(30) {
                self.marks.insert(mark, objects[prng.below(objects.len())]);
            }
        }
    }

    /// Adds what puts the object in the concept, with new objects at the ends
    /// of steps. A mark without an object gets this one.
    pub(super) fn put(&mut self, object: usize, concept: &Concept) -> Result<(), Clash> {
        match concept {
            Concept::Class(class) => {
                self.enter(object, *class);
                Ok(())
            }
            Concept::Everything => Ok(()),
            Concept::Constant(constant) => self.merge(self.constants[*constant], object),
            Concept::Mark(mark) => {
                let present = self.present(object);
                let chosen = *self.marks.entry(*mark).or_insert(present);
                self.merge(chosen, object)
            }
            Concept::Both(left, right) => {
                self.put(object, left)?;
                self.put(object, right)
            }
            Concept::Reached(path) => self.lead(object, path).map(|_| ()),
            Concept::Common(left, right) => {
                let (left, right) = (self.lead(object, left)?, self.lead(object, right)?);
                self.merge(left, right)
            }
        }
    }

    /// The end of a new path from the object.
    fn lead(&mut self, object: usize, path: &Path) -> Result<usize, Clash> {
        let Path::Then(before, step) = path else {
            return Ok(object);
        };
        let from = self.lead(object, before)?;
        let to = self.add_object();
        let attribute = word(step.role.attribute);
        match step.role.direction {
            Direction::Forward => self.relate(attribute, from, to),
            Direction::Backward => self.relate(attribute, to, from),
        }
        self.put(to, &step.landing)?;
        Ok(to)
    }

    /// The state as facts, its objects numbered at random.
    pub(super) fn state(&self, prng: &mut Prng) -> State {
        let mut objects = self.objects();
        prng.shuffle(&mut objects);
        let mut numbers = vec![0; self.merged.len()];
        for (number, &object) in (0..).zip(&objects) {
            numbers[object] = number;
        }
        let mut facts = Vec::new();
        for class in 0..self.signature.classes {
            let members = objects
                .iter()
                .filter(|&&object| self.is_in(object, class.into()));
            facts.extend(members.map(|&object| fact::member(class, numbers[object])));
        }
        for &(attribute, first, second) in &self.pairs {
            facts.push(fact::pair(attribute, numbers[first], numbers[second]));
        }
        for (constant, &object) in (0..).zip(&self.constants) {
            facts.push(fact::name(constant, numbers[object]));
        }
        for (&mark, &object) in &self.marks {
            facts.push(fact::choice(word(mark), numbers[object]));
        }
        State::new(objects.len(), facts)
    }
}
