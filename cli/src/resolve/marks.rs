//! The marks of a query and their numbers.

use super::Resolver;
use crate::fault::Fault;
use crate::model::Name;
use crate::syntax::QueryFrame;
use bikuvoa::layout::MAX_MARKS;
use bikuvoa::Mark;
use std::collections::BTreeSet;

impl Resolver {
    /// The marks with their numbers, in the order of the text. Names have the lowest
    /// numbers that do not stand in the query as numbers.
    pub(super) fn marks(&self, frame: &QueryFrame) -> Result<Vec<(String, Mark)>, Fault> {
        let mut marks: Vec<(String, Mark)> = Vec::new();
        let mut numbers = Vec::new();
        for name in &frame.marks {
            if frame.is_view {
                let message = format!("`?{}` is a mark; a view has none", name.text);
                return Err(self.fault(name.span, message));
            }
            numbers.extend(self.mark_number(name)?);
        }
        for name in &frame.marks {
            if marks.iter().any(|(known, _)| *known == name.text) {
                continue;
            }
            let taken = |mark: &Mark| marks.iter().any(|(_, other)| other == mark);
            let is_free = |mark: &Mark| !numbers.contains(mark) && !taken(mark);
            let mark = match self.mark_number(name)? {
                Some(mark) => Some(mark),
                None => (0..MAX_MARKS).map(Mark).find(is_free),
            };
            match mark {
                Some(mark) => marks.push((name.text.clone(), mark)),
                None => return Err(self.too_many_marks(frame, name)),
            }
        }
        Ok(marks)
    }

    fn too_many_marks(&self, frame: &QueryFrame, name: &Name) -> Fault {
        let distinct: BTreeSet<&str> = frame.marks.iter().map(|mark| mark.text.as_str()).collect();
        let (query, count) = (&frame.name.text, distinct.len());
        let message =
            format!("QueryClass `{query}` has {count} marks; a query has at most {MAX_MARKS}");
        self.fault(name.span, message)
    }

    /// The mark of a name that is a number.
    pub(super) fn mark_number(&self, name: &Name) -> Result<Option<Mark>, Fault> {
        if !name.text.starts_with(|c: char| c.is_ascii_digit()) {
            return Ok(None);
        }
        let mut numbers = 0..MAX_MARKS;
        match numbers.find(|number| number.to_string() == name.text) {
            Some(number) => Ok(Some(Mark(number))),
            None => {
                let last = MAX_MARKS - 1;
                let message = format!("a mark that is a number is one of `?0` to `?{last}`");
                Err(self.fault(name.span, message))
            }
        }
    }
}
