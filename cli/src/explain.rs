//! Why a query is held by a view, or a state that shows that it is not. Every verdict
//! is the library's: a state that is shown has passed its check of counterexamples.

mod draw;
mod facts;
mod fails;
mod instance;
mod json;
mod named;
mod needed;
mod order;
mod question;
mod shrink;
mod spare;
mod text;
mod witness;
mod wording;

#[cfg(test)]
mod tests;

use crate::drawing::Drawing;
use crate::fault::Fault;
use crate::model::{File, QueryClass};
use crate::refused::{self, Role};
use bikuvoa::layout::STEPS;
use bikuvoa::{Decision, Refusal};
use fails::Part;
use instance::Instance;
use needed::Needed;
use question::Question;

/// An answer with what there is to say about it.
#[derive(Clone, Debug)]
pub struct Explanation {
    file: File,
    query: QueryClass,
    view: QueryClass,
    answer: Answer,
}

#[derive(Clone, Debug)]
enum Answer {
    Held(Held),
    Open(Open),
}

/// A legal state with an object that is in the query and not in the view.
#[derive(Clone, Debug)]
struct Open {
    instance: Instance,
    /// The parts of the view, asked of that object.
    parts: Vec<Part>,
}

#[derive(Clone, Debug)]
struct Held {
    needed: Needed,
    /// Whether no legal state has an object of the query, if that can be asked.
    is_empty: Option<bool>,
    other_way: OtherWay,
}

/// Whether the view is held by the query.
#[derive(Clone, Copy, Debug, PartialEq, Eq)]
enum OtherWay {
    Held,
    Open,
    /// The query cannot stand as a view, for its marks or for so many steps.
    HasMarks,
    HasSteps(usize),
}

/// Asks the library whether the query is held by the view, and why.
pub fn explain(
    file: &File,
    query: &QueryClass,
    view: &QueryClass,
    progress: &mut dyn FnMut(&str),
) -> Result<Explanation, Fault> {
    let question = Question {
        schema: file.schema(),
        query: query.concept.words(),
        view: view.concept.words(),
    };
    bikuvoa::check_query(&question.schema, &question.query)
        .map_err(|refusal| refused::concept(file, query, Role::Query, refusal))?;
    bikuvoa::check_view(&question.schema, &question.view)
        .map_err(|refusal| refused::concept(file, view, Role::View, refusal))?;
    let answer = match question.decide() {
        Decision::Held => Answer::Held(Held::of(file, query, &question, progress)?),
        Decision::Open { state, object } => {
            let instance = Instance::of(file, query, &question, (state, object), progress)?;
            let parts = fails::parts(&question.schema, &instance.facts, &view.concept)?;
            Answer::Open(Open { instance, parts })
        }
        Decision::Refused(refusal) => return Err(question::refused(refusal)),
    };
    Ok(Explanation {
        file: file.clone(),
        query: query.clone(),
        view: view.clone(),
        answer,
    })
}

impl Held {
    fn of(
        file: &File,
        query: &QueryClass,
        question: &Question,
        progress: &mut dyn FnMut(&str),
    ) -> Result<Held, Fault> {
        let is_empty = spare::is_empty(file, &query.concept);
        let is_empty = is_empty.map(|question| question.is_held());
        Ok(Held {
            needed: needed::needed(file, &query.concept, &question.view, progress)?,
            is_empty: is_empty.transpose()?,
            other_way: OtherWay::of(question)?,
        })
    }
}

impl OtherWay {
    fn of(question: &Question) -> Result<OtherWay, Fault> {
        let steps = question.query.get(STEPS).copied().unwrap_or(0);
        match bikuvoa::check_view(&question.schema, &question.query) {
            Ok(_) => {}
            Err(Refusal::BAD_STEPS) => return Ok(OtherWay::HasSteps(steps.into())),
            Err(_) => return Ok(OtherWay::HasMarks),
        }
        let exchanged = Question {
            schema: question.schema.clone(),
            query: question.view.clone(),
            view: question.query.clone(),
        };
        Ok(match exchanged.is_held()? {
            true => OtherWay::Held,
            false => OtherWay::Open,
        })
    }
}

impl Explanation {
    pub fn is_held(&self) -> bool {
        matches!(self.answer, Answer::Held(_))
    }

    /// For reading; a state in it is valid input.
    pub fn text(&self) -> String {
        match &self.answer {
            Answer::Held(held) => text::held(self, held),
            Answer::Open(open) => text::open(self, open),
        }
    }

    /// The same as JSON; docs/TEXT.md has its keys.
    pub fn json(&self) -> String {
        match &self.answer {
            Answer::Held(held) => json::held(self, held),
            Answer::Open(open) => json::open(self, open),
        }
    }

    /// The counterexample, or for a query that is held a smallest state with an object
    /// of it.
    pub fn drawing(&self, progress: &mut dyn FnMut(&str)) -> Result<Drawing, Fault> {
        match &self.answer {
            Answer::Held(_) => draw::held(self, progress),
            Answer::Open(open) => Ok(draw::open(self, open)),
        }
    }

    fn title(&self) -> String {
        let (query, view) = (&self.query.name.text, &self.view.name.text);
        match self.is_held() {
            true => format!("HELD  every object of {query} is in {view}"),
            false => format!("OPEN  some object of {query} need not be in {view}"),
        }
    }
}
