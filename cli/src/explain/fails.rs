//! Which parts of the view an object is in, and where it fails in the others. That it
//! does is the library's word; the objects that are named are found in the state.

use super::facts::Facts;
use super::instance::OBJECT;
use super::question::refused;
use super::witness::Witness;
use crate::fault::Fault;
use crate::model::{Concept, Node, Path, Step};
use crate::source::Span;
use bikuvoa::Object;

/// A part of the view.
#[derive(Clone, Debug)]
pub struct Part {
    pub concept: Concept,
    /// Where the object fails; nothing if it is in the part. What fails inside a
    /// landing comes after the step.
    pub misses: Vec<Miss>,
}

/// Something that the view asks for and that is not there.
#[derive(Clone, Debug)]
pub struct Miss {
    pub span: Span,
    /// The objects of which it is asked.
    pub objects: Vec<Object>,
    /// How one comes there from objects for which this was looked for.
    pub walks: Vec<Walk>,
    pub lack: Lack,
}

/// Steps from each of these objects.
#[derive(Clone, Debug)]
pub struct Walk {
    pub from: Vec<Object>,
    pub steps: Vec<Step>,
}

#[derive(Clone, Debug)]
pub enum Lack {
    /// They are not in the class, or not what the constant names.
    Being(Concept),
    /// They have no value for this step.
    Value(Step),
    /// They have these values for this step, but none on which it may land.
    Landing(Step, Vec<Object>),
    /// The two paths do not lead to one and the same object.
    Meeting(Concept, Vec<Ends>),
}

/// The objects to which the paths of an equation lead from one object.
#[derive(Clone, Debug)]
pub struct Ends {
    pub left: Vec<Object>,
    pub right: Vec<Object>,
}

impl Part {
    pub fn is_held(&self) -> bool {
        self.misses.is_empty()
    }
}

/// Each part of the view, asked of the object that the state is shown for.
pub fn parts(schema: &[u16], facts: &Facts, view: &Concept) -> Result<Vec<Part>, Fault> {
    let parts = view.parts().iter().map(|concept| {
        let mut asked = Asked {
            schema,
            state: facts.without_choices(),
            witness: Witness::of(facts),
            misses: Vec::new(),
        };
        asked.look(concept, &[OBJECT])?;
        Ok(Part {
            concept: concept.clone(),
            misses: asked.misses,
        })
    });
    parts.collect()
}

struct Asked<'a> {
    schema: &'a [u16],
    state: Vec<u16>,
    witness: Witness<'a>,
    misses: Vec<Miss>,
}

/// Objects that are in a concept, and those that are not.
type Told = (Vec<Object>, Vec<Object>);

impl Asked<'_> {
    /// Which of the objects are in the concept, by the library.
    fn told(&self, concept: &Concept, objects: &[Object]) -> Result<Told, Fault> {
        let selected = bikuvoa::select(self.schema, &concept.words(), &self.state);
        let selected = selected.map_err(refused)?;
        let is_in = |object: &Object| selected.contains(object);
        Ok(objects.iter().partition(|&object| is_in(object)))
    }

    /// From which of the objects the steps lead somewhere.
    fn led(&self, steps: &[Step], objects: &[Object]) -> Result<Told, Fault> {
        let path = Path {
            span: Span::default(),
            steps: steps.to_vec(),
        };
        self.told(&Concept::unplaced(Node::Reached(path)), objects)
    }

    /// Notes where the objects fail in the concept.
    fn look(&mut self, concept: &Concept, objects: &[Object]) -> Result<(), Fault> {
        let (_, failing) = self.told(concept, objects)?;
        if failing.is_empty() {
            return Ok(());
        }
        match &concept.node {
            Node::All(inner) => {
                for concept in inner {
                    self.look(concept, &failing)?;
                }
            }
            Node::Reached(path) => {
                self.look_along(path, &failing)?;
            }
            Node::Common(left, right) => {
                let through = self.look_along(left, &failing)?;
                let other = self.look_along(right, &failing)?;
                let both = through.into_iter().filter(|object| other.contains(object));
                self.look_at_ends(concept, [left, right], both.collect());
            }
            _ => self.misses.push(Miss {
                span: concept.span,
                objects: failing,
                walks: Vec::new(),
                lack: Lack::Being(concept.clone()),
            }),
        }
        Ok(())
    }

    /// Notes for each object the first step of the path that leads nowhere, and gives
    /// the objects from which all steps lead somewhere.
    fn look_along(&mut self, path: &Path, objects: &[Object]) -> Result<Vec<Object>, Fault> {
        let mut going = objects.to_vec();
        for (before, step) in path.steps.iter().enumerate() {
            let (led, stuck) = self.led(&path.steps[..=before], &going)?;
            if !stuck.is_empty() {
                self.look_at_step(&path.steps[..before], step, &stuck)?;
            }
            going = led;
        }
        Ok(going)
    }

    /// Notes that the step leads nowhere from where the steps before it lead to.
    fn look_at_step(
        &mut self,
        before: &[Step],
        step: &Step,
        objects: &[Object],
    ) -> Result<(), Fault> {
        let mut anywhere = before.to_vec();
        anywhere.push(Step {
            landing: Concept::unplaced(Node::Everything),
            ..step.clone()
        });
        let (valued, valueless) = self.led(&anywhere, objects)?;
        if !valueless.is_empty() {
            let walk = Walk::of(before, &valueless);
            self.miss_step(before, step.span, walk, Lack::Value(step.clone()));
        }
        if valued.is_empty() {
            return Ok(());
        }
        let values = self.witness.ends(&anywhere, &valued);
        let lack = Lack::Landing(step.clone(), values.clone());
        self.miss_step(before, step.span, Walk::of(&anywhere, &valued), lack);
        // Of a class or a constant there is no more to say.
        match is_leaf(&step.landing) {
            true => Ok(()),
            false => self.look(&step.landing, &values),
        }
    }

    fn miss_step(&mut self, before: &[Step], span: Span, walk: Walk, lack: Lack) {
        self.misses.push(Miss {
            span,
            objects: self.witness.ends(before, &walk.from),
            walks: vec![walk],
            lack,
        });
    }

    /// Notes that the two paths, which lead somewhere, do not lead to one object.
    fn look_at_ends(&mut self, equation: &Concept, paths: [&Path; 2], objects: Vec<Object>) {
        if objects.is_empty() {
            return;
        }
        let ends = objects.iter().map(|&object| {
            let [left, right] = paths.map(|path| self.witness.ends(&path.steps, &[object]));
            Ends { left, right }
        });
        let lack = Lack::Meeting(equation.clone(), ends.collect());
        self.misses.push(Miss {
            span: equation.span,
            walks: paths.map(|path| Walk::of(&path.steps, &objects)).into(),
            objects,
            lack,
        });
    }
}

impl Walk {
    fn of(steps: &[Step], from: &[Object]) -> Walk {
        Walk {
            from: from.to_vec(),
            steps: steps.to_vec(),
        }
    }
}

/// Whether the concept asks for no more than a class or a constant.
pub fn is_leaf(concept: &Concept) -> bool {
    !matches!(
        concept.node,
        Node::All(_) | Node::Reached(_) | Node::Common(..)
    )
}
