//! By which pairs an object is in a concept. This is only for showing: it finds again,
//! on small states, what the library says of them.

use super::facts::{Facts, Link};
use crate::model::{Concept, Node, Path, Step};
use bikuvoa::{Fact, Object};
use std::collections::{BTreeMap, BTreeSet};

/// For each object whether it is in some concept.
type Members = Vec<bool>;

/// Finds pairs in one state. Marks are the objects that the state chooses.
#[derive(Clone, Copy, Debug)]
pub struct Witness<'a> {
    facts: &'a Facts,
}

impl<'a> Witness<'a> {
    pub fn of(facts: &'a Facts) -> Self {
        Witness { facts }
    }

    /// The pairs by which the object is in the concept, if it is.
    pub fn pairs(&self, concept: &Concept, object: Object) -> Option<BTreeSet<Link>> {
        let mut pairs = BTreeSet::new();
        self.collect(concept, object, &mut pairs).then_some(pairs)
    }

    /// The objects to which the steps lead from any of the objects.
    pub fn ends(&self, steps: &[Step], objects: &[Object]) -> Vec<Object> {
        self.ways_over(steps, &self.landings(steps), objects).ends()
    }

    /// The pairs of one way along the steps to each of so many of their ends.
    pub fn pairs_to_ends(&self, steps: &[Step], object: Object, most: usize) -> BTreeSet<Link> {
        let ways = self.ways(steps, object);
        let mut pairs = BTreeSet::new();
        for end in ways.ends().into_iter().take(most) {
            self.collect_way(steps, &ways, end, &mut pairs);
        }
        pairs
    }

    fn collect(&self, concept: &Concept, object: Object, pairs: &mut BTreeSet<Link>) -> bool {
        match &concept.node {
            Node::All(parts) => parts.iter().all(|part| self.collect(part, object, pairs)),
            Node::Reached(path) => {
                let ways = self.ways(&path.steps, object);
                let end = ways.ends().first().copied();
                end.is_some_and(|end| self.collect_way(&path.steps, &ways, end, pairs))
            }
            Node::Common(left, right) => {
                let (one, other) = (
                    self.ways(&left.steps, object),
                    self.ways(&right.steps, object),
                );
                let others = other.ends();
                let end = one.ends().into_iter().find(|end| others.contains(end));
                end.is_some_and(|end| {
                    self.collect_way(&left.steps, &one, end, pairs)
                        && self.collect_way(&right.steps, &other, end, pairs)
                })
            }
            _ => self.members(concept).get(usize::from(object.0)) == Some(&true),
        }
    }

    /// The pairs of the way to that end, from its last step back, and those by which
    /// each of its objects is in the landing.
    fn collect_way(
        &self,
        steps: &[Step],
        ways: &Ways,
        end: Object,
        pairs: &mut BTreeSet<Link>,
    ) -> bool {
        let mut at = end;
        for (step, came) in steps.iter().zip(&ways.0[1..]).rev() {
            let Some(&link) = came.get(&at).and_then(Option::as_ref) else {
                return false;
            };
            if !self.collect(&step.landing, at, pairs) {
                return false;
            }
            pairs.insert(link);
            at = start_of(step, link);
        }
        true
    }

    fn ways(&self, steps: &[Step], object: Object) -> Ways {
        self.ways_over(steps, &self.landings(steps), &[object])
    }

    /// The landings are found once for all objects from which one may start.
    fn landings(&self, steps: &[Step]) -> Vec<Members> {
        steps
            .iter()
            .map(|step| self.members(&step.landing))
            .collect()
    }

    fn ways_over(&self, steps: &[Step], landings: &[Members], objects: &[Object]) -> Ways {
        let start = objects.iter().map(|&object| (object, None));
        let mut levels = vec![BTreeMap::from_iter(start)];
        for (step, landing) in steps.iter().zip(landings) {
            let mut next = BTreeMap::new();
            for link in self.links_of(step) {
                let (from, to) = (start_of(step, link), end_of(step, link));
                let lands = landing.get(usize::from(to.0)) == Some(&true);
                let starts = levels.last().is_some_and(|level| level.contains_key(&from));
                if lands && starts {
                    next.entry(to).or_insert(Some(link));
                }
            }
            levels.push(next);
        }
        Ways(levels)
    }

    fn links_of(&self, step: &'a Step) -> impl Iterator<Item = Link> + 'a {
        let facts = self.facts;
        facts
            .links()
            .filter(|link| link.attribute == step.attribute)
    }

    fn members(&self, concept: &Concept) -> Members {
        match &concept.node {
            Node::Everything => vec![true; self.facts.objects.into()],
            Node::Class(wanted) => self.told(|fact| match fact {
                Fact::Member { class, object } if class == *wanted => Some(object),
                _ => None,
            }),
            Node::Constant(wanted) => self.told(|fact| match fact {
                Fact::Name { constant, object } if constant == *wanted => Some(object),
                _ => None,
            }),
            Node::Mark(wanted) => self.told(|fact| match fact {
                Fact::Choice { mark, object } if mark == *wanted => Some(object),
                _ => None,
            }),
            Node::All(parts) => {
                let mut members = vec![true; self.facts.objects.into()];
                for part in parts {
                    let of_part = self.members(part);
                    members
                        .iter_mut()
                        .zip(of_part)
                        .for_each(|(all, one)| *all &= one);
                }
                members
            }
            Node::Reached(path) => self.starts(path),
            Node::Common(left, right) => self.meeting(&left.steps, &right.steps),
        }
    }

    /// The objects from which both lead to one object.
    fn meeting(&self, left: &[Step], right: &[Step]) -> Members {
        let landings = [left, right].map(|steps| self.landings(steps));
        let meets = |object| {
            let one = self.ways_over(left, &landings[0], &[object]).ends();
            let other = self.ways_over(right, &landings[1], &[object]).ends();
            one.iter().any(|end| other.contains(end))
        };
        (0..self.facts.objects).map(Object).map(meets).collect()
    }

    /// The objects of which a fact tells it.
    fn told(&self, object: impl Fn(Fact) -> Option<Object>) -> Members {
        let mut members = vec![false; self.facts.objects.into()];
        for Object(number) in self.facts.facts.iter().filter_map(|&fact| object(fact)) {
            if let Some(member) = members.get_mut(usize::from(number)) {
                *member = true;
            }
        }
        members
    }

    /// The objects from which the path leads somewhere, found from its end.
    fn starts(&self, path: &Path) -> Members {
        let mut members = vec![true; self.facts.objects.into()];
        for step in path.steps.iter().rev() {
            let landing = self.members(&step.landing);
            let mut before = vec![false; members.len()];
            for link in self.links_of(step) {
                let (from, to) = (start_of(step, link), usize::from(end_of(step, link).0));
                if landing[to] && members[to] {
                    before[usize::from(from.0)] = true;
                }
            }
            members = before;
        }
        members
    }
}

/// The objects after each step, each with the pair by which it was come to.
struct Ways(Vec<BTreeMap<Object, Option<Link>>>);

impl Ways {
    fn ends(&self) -> Vec<Object> {
        self.0
            .last()
            .into_iter()
            .flat_map(BTreeMap::keys)
            .copied()
            .collect()
    }
}

fn start_of(step: &Step, link: Link) -> Object {
    match step.backward {
        false => link.first,
        true => link.second,
    }
}

fn end_of(step: &Step, link: Link) -> Object {
    match step.backward {
        false => link.second,
        true => link.first,
    }
}
