//! The pair of constraint sets that the rules rewrite: facts, held by form,
//! and goals.

use super::terms::{ConceptId, PathId};
use crate::syntax::Role;
use std::collections::{BTreeMap, BTreeSet};

/// Constants that are not loose sort first and variables last, so that a merge of
/// the greatest of several individuals into the least replaces a variable or a
/// loose constant, if there is one.
#[derive(Clone, Copy, Debug, PartialEq, Eq, PartialOrd, Ord)]
pub(crate) enum Individual {
    Constant(usize),
    Loose(usize),
    Variable(usize),
}

impl Individual {
    /// Whether no state has one object for both: two constants, neither loose.
    pub(crate) fn differs(self, other: Self) -> bool {
        let constants = (self, other);
        self != other && matches!(constants, (Self::Constant(_), Self::Constant(_)))
    }
}

const LEAST: Individual = Individual::Constant(0);
const GREATEST: Individual = Individual::Variable(usize::MAX);

/// Adding methods tell whether the pair was altered.
pub(crate) struct Pair {
    /// The facts `s:C`, by concept so that the members of a class lie together.
    members: BTreeSet<(ConceptId, Individual)>,
    /// The facts `sRt`.
    edges: BTreeSet<(Individual, Role, Individual)>,
    /// The facts `spt`.
    connections: BTreeSet<(Individual, PathId, Individual)>,
    /// The goals `s:C`.
    goals: BTreeSet<(ConceptId, Individual)>,
    start: Individual,
    /// For each constant the individual that now stands for it.
    constants: Vec<Individual>,
    /// For each mark that the query uses the individual that now stands for it.
    marks: BTreeMap<usize, Individual>,
    variables: usize,
}

impl Pair {
    /// One variable that is in the query, with the goal that it is in the view, a
    /// variable for each of the marks, and these individuals for the constants.
    pub(crate) fn new(
        query: ConceptId,
        view: ConceptId,
        constants: Vec<Individual>,
        marks: &BTreeSet<usize>,
    ) -> Self {
        let start = Individual::Variable(0);
        let variables = (1..).map(Individual::Variable);
        Pair {
            members: BTreeSet::from([(query, start)]),
            edges: BTreeSet::new(),
            connections: BTreeSet::new(),
            goals: BTreeSet::from([(view, start)]),
            start,
            constants,
            marks: marks.iter().copied().zip(variables).collect(),
            variables: 1 + marks.len(),
        }
    }

    /// The individual that now stands for the first variable.
    pub(crate) fn start(&self) -> Individual {
        self.start
    }

    /// The individual that now stands for the constant.
    pub(crate) fn constant(&self, number: usize) -> Individual {
        self.constants[number]
    }

    /// The individual that now stands for the mark, which the query uses.
    pub(crate) fn mark(&self, number: usize) -> Individual {
        self.marks[&number]
    }

    #[cfg(test)]
    pub(crate) fn marks(&self) -> &BTreeMap<usize, Individual> {
        &self.marks
    }

    pub(crate) fn fresh(&mut self) -> Individual {
        self.variables += 1;
        Individual::Variable(self.variables - 1)
    }

    pub(crate) fn add_member(&mut self, s: Individual, concept: ConceptId) -> bool {
        self.members.insert((concept, s))
    }

    /// Enters `sRt` with its inverse, so rule D2 is never left to apply.
    pub(crate) fn relate(&mut self, s: Individual, role: Role, t: Individual) -> bool {
        self.edges.insert((t, role.inverse(), s)) | self.edges.insert((s, role, t))
    }

    pub(crate) fn connect(&mut self, s: Individual, path: PathId, t: Individual) -> bool {
        self.connections.insert((s, path, t))
    }

    pub(crate) fn add_goal(&mut self, s: Individual, concept: ConceptId) -> bool {
        self.goals.insert((concept, s))
    }

    pub(crate) fn is_member(&self, s: Individual, concept: ConceptId) -> bool {
        self.members.contains(&(concept, s))
    }

    pub(crate) fn is_connected(&self, s: Individual, path: PathId, t: Individual) -> bool {
        self.connections.contains(&(s, path, t))
    }

    /// The individuals with a fact `s:C` for this concept.
    pub(crate) fn members_of(&self, concept: ConceptId) -> Vec<Individual> {
        self.members
            .range((concept, LEAST)..=(concept, GREATEST))
            .map(|&(_, s)| s)
            .collect()
    }

    /// The individuals `t` with `sRt`, in ascending order.
    pub(crate) fn fillers(&self, s: Individual, role: Role) -> Vec<Individual> {
        self.edges
            .range((s, role, LEAST)..=(s, role, GREATEST))
            .map(|&(_, _, t)| t)
            .collect()
    }

    /// The individuals `t` with `spt`.
    pub(crate) fn ends(&self, s: Individual, path: PathId) -> Vec<Individual> {
        self.connections
            .range((s, path, LEAST)..=(s, path, GREATEST))
            .map(|&(_, _, t)| t)
            .collect()
    }

    pub(crate) fn members(&self) -> Vec<(ConceptId, Individual)> {
        self.members.iter().copied().collect()
    }

    pub(crate) fn edges(&self) -> Vec<(Individual, Role, Individual)> {
        self.edges.iter().copied().collect()
    }

    pub(crate) fn connections(&self) -> Vec<(Individual, PathId, Individual)> {
        self.connections.iter().copied().collect()
    }

    pub(crate) fn goals(&self) -> Vec<(ConceptId, Individual)> {
        self.goals.iter().copied().collect()
    }

    /// Makes two individuals one: the greater is replaced by the less. Those that
    /// differ stay, and are a clash.
    pub(crate) fn merge(&mut self, one: Individual, other: Individual) -> bool {
        let merges = one != other && !one.differs(other);
        if merges {
            self.substitute(one.max(other), one.min(other));
        }
        merges
    }

    /// Replaces one individual by another in all facts and goals.
    fn substitute(&mut self, old: Individual, new: Individual) {
        let swap = |s| if s == old { new } else { s };
        self.members = self.members.iter().map(|&(c, s)| (c, swap(s))).collect();
        self.edges = self
            .edges
            .iter()
            .map(|&(s, role, t)| (swap(s), role, swap(t)))
            .collect();
        self.connections = self
            .connections
            .iter()
            .map(|&(s, path, t)| (swap(s), path, swap(t)))
            .collect();
        self.goals = self.goals.iter().map(|&(c, s)| (c, swap(s))).collect();
        self.start = swap(self.start);
        self.constants = self.constants.iter().map(|&s| swap(s)).collect();
        self.marks = self
            .marks
            .iter()
            .map(|(&mark, &s)| (mark, swap(s)))
            .collect();
    }
}
