//! The state as it is drawn.

use super::facts::{Facts, Link};
use super::fails::{is_leaf, Ends, Lack, Miss};
use super::instance::{Instance, OBJECT};
use super::witness::Witness;
use super::wording::Wording;
use super::{named, spare, Explanation, Open};
use crate::drawing::{Drawing, Edge, Node};
use crate::fault::Fault;
use crate::model::{self, Concept, Step};
use bikuvoa::{Decision, Fact, Object};
use std::collections::BTreeSet;

/// Of a state with more objects only those are drawn that the paths touch.
const DRAWN: usize = 40;
const UNTOUCHED: &str = "touched by no path of the query or the view";

/// If these are more as well, so many objects are drawn at each place where the view
/// fails.
const SEVERAL: usize = 3;

/// The counterexample, with what the view misses.
pub fn open(explanation: &Explanation, open: &Open) -> Drawing {
    let misses = open.parts.iter().flat_map(|part| &part.misses);
    let misses: Vec<&Miss> = misses.collect();
    let sketch = |most| Sketch::of(explanation, &open.instance, in_view(open, most));
    let whole = sketch(DRAWN);
    if whole.touched(&misses).len() <= DRAWN {
        return whole.drawn(&misses, UNTOUCHED);
    }
    let why = format!("touched by no path, or with {SEVERAL} others drawn at the same place");
    sketch(SEVERAL).drawn(&misses, &why)
}

/// The pairs by which the object is in parts of the view, and those by which one comes
/// to where it fails, from each object to so many at one place.
fn in_view(open: &Open, most: usize) -> BTreeSet<Link> {
    let witness = Witness::of(&open.instance.facts);
    let mut come_to = BTreeSet::from([OBJECT]);
    let mut pairs = BTreeSet::new();
    for part in &open.parts {
        pairs.extend(witness.pairs(&part.concept, OBJECT).unwrap_or_default());
        for walk in part.misses.iter().flat_map(|miss| &miss.walks) {
            let from = walk.from.iter().filter(|&from| come_to.contains(from));
            for object in from.copied().collect::<Vec<Object>>() {
                let walked = witness.pairs_to_ends(&walk.steps, object, most);
                come_to.extend(walked.iter().flat_map(|link| [link.first, link.second]));
                pairs.extend(walked);
            }
        }
    }
    pairs
}

/// A small state with an object of the query, which is then in the view as well. If
/// there is none, or it cannot be found, the drawing says so.
pub fn held(explanation: &Explanation, progress: &mut dyn FnMut(&str)) -> Result<Drawing, Fault> {
    let Explanation {
        file, query, view, ..
    } = explanation;
    let question = spare::is_empty_beside(file, &query.concept, &view.concept)
        .or_else(|| spare::is_empty(file, &query.concept));
    let Some(question) = question else {
        let why = "a state is found by a further class or attribute, and there may be none";
        return Ok(nothing(explanation, why));
    };
    let Decision::Open { state, object } = question.decide() else {
        let why = format!("no legal state has an object of {}", query.name.text);
        return Ok(nothing(explanation, &why));
    };
    let instance = Instance::of(file, query, &question, (state, object), progress)?;
    let in_view = Witness::of(&instance.facts).pairs(&view.concept, OBJECT);
    let sketch = Sketch::of(explanation, &instance, in_view.unwrap_or_default());
    Ok(sketch.drawn(&[], UNTOUCHED))
}

fn nothing(explanation: &Explanation, why: &str) -> Drawing {
    Drawing {
        title: explanation.title(),
        nodes: Vec::new(),
        edges: Vec::new(),
        note: Some(format!("There is nothing to draw: {why}.")),
    }
}

/// What a drawing is made from.
struct Sketch<'a> {
    explanation: &'a Explanation,
    facts: &'a Facts,
    wording: Wording<'a>,
    in_query: BTreeSet<Link>,
    in_view: BTreeSet<Link>,
}

impl<'a> Sketch<'a> {
    fn of(
        explanation: &'a Explanation,
        instance: &'a Instance,
        in_view: BTreeSet<Link>,
    ) -> Sketch<'a> {
        let witness = Witness::of(&instance.facts);
        let in_query = witness.pairs(&explanation.query.concept, OBJECT);
        Sketch {
            explanation,
            facts: &instance.facts,
            wording: Wording::of(&explanation.file, &instance.frame),
            in_query: in_query.unwrap_or_default(),
            in_view,
        }
    }

    /// The drawing of all objects, or of those that are touched and why not of others.
    fn drawn(&self, misses: &[&Miss], why_not: &str) -> Drawing {
        let objects: Vec<Object> = (0..self.facts.objects).map(Object).collect();
        let drawn = match objects.len() > DRAWN {
            true => self.touched(misses),
            false => objects.clone(),
        };
        let (all, left) = (objects.len(), objects.len() - drawn.len());
        let mut drawing = Drawing {
            title: self.explanation.title(),
            nodes: drawn.iter().map(|&object| self.node(object)).collect(),
            edges: self.edges(&drawn),
            note: (left > 0).then(|| format!("Not drawn: {left} of {all} objects, {why_not}.")),
        };
        for miss in misses {
            self.draw_miss(miss, &drawn, &mut drawing);
        }
        drawing
    }

    /// The objects on the paths, and those on which missing steps would land.
    fn touched(&self, misses: &[&Miss]) -> Vec<Object> {
        let mut touched = BTreeSet::from([OBJECT]);
        for link in self.in_query.iter().chain(&self.in_view) {
            touched.extend([link.first, link.second]);
        }
        for miss in misses {
            if let Lack::Value(step) = &miss.lack {
                touched.extend(self.named_landing(&step.landing));
            }
        }
        touched.into_iter().collect()
    }

    fn node(&self, object: Object) -> Node {
        let names = &self.explanation.file.names;
        let classes = named::classes(self.facts, object).into_iter();
        let called = self.facts.facts.iter().filter_map(|&fact| match fact {
            Fact::Name {
                constant,
                object: it,
            } if it == object => Some(format!("{{{}}}", names.constant(constant))),
            Fact::Choice { mark, object: it } if it == object => {
                Some(format!("?{}", named::mark(&self.explanation.query, mark)))
            }
            _ => None,
        });
        Node {
            name: self.wording.object(object).to_string(),
            classes: classes
                .map(|class| names.class(class).to_string())
                .collect(),
            called: called.collect(),
            lacks: Vec::new(),
            missing: false,
        }
    }

    fn edges(&self, drawn: &[Object]) -> Vec<Edge> {
        let edges = self.facts.links().filter_map(|link| {
            Some(Edge {
                from: drawn.binary_search(&link.first).ok()?,
                to: drawn.binary_search(&link.second).ok()?,
                attribute: self
                    .explanation
                    .file
                    .names
                    .attribute(link.attribute)
                    .to_string(),
                in_query: self.in_query.contains(&link),
                in_view: self.in_view.contains(&link),
                missing: false,
            })
        });
        edges.collect()
    }

    fn draw_miss(&self, miss: &Miss, drawn: &[Object], drawing: &mut Drawing) {
        match &miss.lack {
            Lack::Being(concept) => {
                lack(drawing, drawn, &miss.objects, self.wording.landing(concept));
            }
            // What is no class or constant is looked into by further misses.
            Lack::Landing(step, values) if is_leaf(&step.landing) => {
                lack(drawing, drawn, values, self.wording.landing(&step.landing));
            }
            Lack::Landing(..) => {}
            Lack::Value(step) => self.draw_missing_step(step, &miss.objects, drawn, drawing),
            Lack::Meeting(_, ends) => {
                for (object, Ends { left, right }) in miss.objects.iter().zip(ends) {
                    // The object itself is not said to be another one.
                    let (ends, others) = match left.as_slice() {
                        [only] if only == object => (right, left),
                        _ => (left, right),
                    };
                    let same = format!("= {}", self.wording.any_of(others));
                    lack(drawing, drawn, ends, same);
                }
            }
        }
    }

    /// A pair to an object that is not there, or to what the step lands on by name.
    fn draw_missing_step(
        &self,
        step: &Step,
        objects: &[Object],
        drawn: &[Object],
        drawing: &mut Drawing,
    ) {
        let places = objects.iter().map(|object| drawn.binary_search(object));
        let places: Vec<usize> = places.flatten().collect();
        if places.is_empty() {
            return;
        }
        let named = self.named_landing(&step.landing);
        let landing = named.and_then(|object| drawn.binary_search(&object).ok());
        let landing = landing.unwrap_or_else(|| {
            drawing.nodes.push(Node {
                name: self.wording.landing(&step.landing),
                classes: Vec::new(),
                called: Vec::new(),
                lacks: Vec::new(),
                missing: true,
            });
            drawing.nodes.len() - 1
        });
        for at in places {
            let (from, to) = match step.backward {
                false => (at, landing),
                true => (landing, at),
            };
            drawing.edges.push(Edge {
                from,
                to,
                attribute: self
                    .explanation
                    .file
                    .names
                    .attribute(step.attribute)
                    .to_string(),
                in_query: false,
                in_view: false,
                missing: true,
            });
        }
    }

    /// The object of a constant on which a step is to land.
    fn named_landing(&self, landing: &Concept) -> Option<Object> {
        landing.parts().iter().find_map(|part| match part.node {
            model::Node::Constant(constant) => self.wording.named(constant),
            _ => None,
        })
    }
}

/// Notes what those of the objects lack that are drawn.
fn lack(drawing: &mut Drawing, drawn: &[Object], objects: &[Object], what: String) {
    for object in objects {
        let place = drawn.binary_search(object).ok();
        let node = place.and_then(|place| drawing.nodes.get_mut(place));
        if let Some(node) = node.filter(|node| !node.lacks.contains(&what)) {
            node.lacks.push(what.clone());
        }
    }
}
