//! Concepts and paths of the calculus, each stored once, so that constraints
//! are small and equal terms of query and view are one.

use crate::syntax::Role;
use std::collections::HashMap;

#[derive(Clone, Copy, Debug, PartialEq, Eq, PartialOrd, Ord, Hash)]
pub(crate) struct ConceptId(usize);

#[derive(Clone, Copy, Debug, PartialEq, Eq, PartialOrd, Ord, Hash)]
pub(crate) struct PathId(usize);

/// An agreement always ends in the empty path, so one path is enough for it.
#[derive(Clone, Copy, Debug, PartialEq, Eq, Hash)]
pub(crate) enum ConceptTerm {
    Class(usize),
    Top,
    Constant(usize),
    Mark(usize),
    Both(ConceptId, ConceptId),
    Exists(PathId),
    Agrees(PathId),
}

/// A path begins with its first step, since the rules take paths apart there.
#[derive(Clone, Copy, Debug, PartialEq, Eq, Hash)]
pub(crate) enum PathTerm {
    Empty,
    Step(Role, ConceptId, PathId),
}

#[derive(Default)]
pub(crate) struct Terms {
    concepts: Vec<ConceptTerm>,
    paths: Vec<PathTerm>,
    concept_ids: HashMap<ConceptTerm, ConceptId>,
    path_ids: HashMap<PathTerm, PathId>,
}

impl Terms {
    pub(crate) fn concept(&self, id: ConceptId) -> ConceptTerm {
        self.concepts[id.0]
    }

    pub(crate) fn path(&self, id: PathId) -> PathTerm {
        self.paths[id.0]
    }

    pub(crate) fn concept_id(&mut self, term: ConceptTerm) -> ConceptId {
        let concepts = &mut self.concepts;
        *self.concept_ids.entry(term).or_insert_with(|| {
            concepts.push(term);
            ConceptId(concepts.len() - 1)
        })
    }

    pub(crate) fn path_id(&mut self, term: PathTerm) -> PathId {
        let paths = &mut self.paths;
        *self.path_ids.entry(term).or_insert_with(|| {
            paths.push(term);
            PathId(paths.len() - 1)
        })
    }

    pub(crate) fn class_id(&mut self, class: usize) -> ConceptId {
        self.concept_id(ConceptTerm::Class(class))
    }
}
