//! What an answer HELD needs: parts of the query and axioms of which none can be left
//! out. A wider query and fewer axioms are held less often, so what could not be left
//! out once never can, and each is tried alone only once.

use super::question::Question;
use crate::fault::Fault;
use crate::model::{Concept, File, Node};

/// Which are needed, by their place.
#[derive(Clone, Debug)]
pub struct Needed {
    pub parts: Vec<bool>,
    pub axioms: Vec<bool>,
    /// Whether the whole query is open without any one of these axioms, so that there
    /// is no other way to do without it.
    pub is_only_way: bool,
}

/// What the answer to the question, which is held, needs.
pub fn needed(
    file: &File,
    query: &Concept,
    view: &[u16],
    progress: &mut dyn FnMut(&str),
) -> Result<Needed, Fault> {
    let all = vec![true; file.axioms.len()];
    let asked = |query: &Concept, axioms: &[bool]| {
        let question = Question {
            schema: file.schema_with(file.names.signature(), |place| axioms[place]),
            query: query.words(),
            view: view.to_vec(),
        };
        question.is_held()
    };
    progress("looking for the parts of the query that are needed");
    let parts = leave_out(query.parts().len(), |kept| asked(&only(query, kept), &all))?;
    let narrowed = only(query, &parts);
    progress("looking for the axioms that are needed");
    let axioms = leave_out(all.len(), |kept| asked(&narrowed, kept))?;
    let mut is_only_way = true;
    for place in (0..all.len()).filter(|&place| axioms[place]) {
        let mut others = all.clone();
        others[place] = false;
        is_only_way &= !asked(query, &others)?;
    }
    Ok(Needed {
        parts,
        axioms,
        is_only_way,
    })
}

/// Which of so many cannot be left out: runs of many are tried at first, and in the end
/// each alone.
fn leave_out(
    count: usize,
    mut is_held: impl FnMut(&[bool]) -> Result<bool, Fault>,
) -> Result<Vec<bool>, Fault> {
    let mut kept = vec![true; count];
    let mut run = count;
    while run > 0 {
        for at in (0..count).step_by(run) {
            let end = count.min(at + run);
            let mut fewer = kept.clone();
            fewer[at..end].fill(false);
            if fewer != kept && is_held(&fewer)? {
                kept = fewer;
            }
        }
        run /= 2;
    }
    Ok(kept)
}

/// The concept with only these parts; without any it has all objects.
fn only(concept: &Concept, kept: &[bool]) -> Concept {
    let parts = concept.parts().iter().zip(kept).filter(|(_, &kept)| kept);
    let mut parts: Vec<Concept> = parts.map(|(part, _)| part.clone()).collect();
    let node = match parts.len() {
        0 => Node::Everything,
        1 => return parts.remove(0),
        _ => Node::All(parts),
    };
    Concept {
        span: concept.span,
        node,
    }
}
