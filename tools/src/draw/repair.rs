//! Makes a sketch obey its schema by adding facts, values and, at the last,
//! one object that is everything and its own value of every attribute.

use super::sketch::{Clash, Sketch};
use crate::prng::Prng;
use crate::word;
use bikuvoa::layout::Signature;
use reference::marks::used;
use reference::syntax::{Axiom, Concept, Schema};

/// Where the values that the schema needs come from.
#[derive(Clone, Copy, PartialEq, Eq)]
pub(super) enum Values {
    /// New objects, so that little holds beyond what the axioms force.
    New,
    /// Any objects.
    Any,
}

/// How many objects are added before the closing one serves.
const ROOM: usize = 12;

/// Adds until every axiom holds. A state without clash always comes to that.
pub(super) fn repair(
    sketch: &mut Sketch,
    schema: &Schema,
    values: Values,
    prng: &mut Prng,
) -> Result<(), Clash> {
    let mut repair = Repair {
        sketch,
        schema,
        values,
        prng,
        room: ROOM,
        closing: None,
    };
    while repair.follow()? || repair.supply() {}
    Ok(())
}

/// A legal state with an object in the query, and that object. Where values may be
/// any objects, loose constants and marks may be as well.
pub(super) fn model(
    signature: Signature,
    schema: &Schema,
    query: &Concept,
    values: Values,
    prng: &mut Prng,
) -> Result<(Sketch, usize), Clash> {
    let mut sketch = Sketch::new(signature);
    if values == Values::Any {
        sketch.share(prng);
    }
    let start = sketch.add_object();
    if values == Values::Any {
        sketch.choose(prng, &used(query));
    }
    sketch.put(start, query)?;
    repair(&mut sketch, schema, values, prng)?;
    Ok((sketch, start))
}

struct Repair<'a> {
    sketch: &'a mut Sketch,
    schema: &'a Schema,
    values: Values,
    prng: &'a mut Prng,
    room: usize,
    closing: Option<usize>,
}

impl Repair<'_> {
    /// All axioms but the needs, once; tells whether anything was altered.
    fn follow(&mut self) -> Result<bool, Clash> {
        let mut altered = false;
        for axiom in &self.schema.axioms {
            altered |= match *axiom {
                Axiom::Includes { class, superclass } => self.include(class, superclass),
                Axiom::Types {
                    class,
                    attribute,
                    values,
                } => self.type_values(class, attribute, values),
                Axiom::Needs { .. } => false,
                Axiom::Single { class, attribute } => self.merge_values(class, attribute)?,
                Axiom::Relates {
                    attribute,
                    domain,
                    range,
                } => self.type_pairs(attribute, domain, range),
            };
        }
        Ok(altered)
    }

    fn members(&self, class: usize) -> Vec<usize> {
        let objects = self.sketch.objects().into_iter();
        objects
            .filter(|&object| self.sketch.is_in(object, class))
            .collect()
    }

    fn include(&mut self, class: usize, superclass: usize) -> bool {
        let mut altered = false;
        for object in self.members(class) {
            altered |= self.sketch.enter(object, superclass);
        }
        altered
    }

    fn type_values(&mut self, class: usize, attribute: usize, values: usize) -> bool {
        let mut altered = false;
        for object in self.members(class) {
            for value in self.sketch.values(word(attribute), object) {
                altered |= self.sketch.enter(value, values);
            }
        }
        altered
    }

    fn type_pairs(&mut self, attribute: usize, domain: usize, range: usize) -> bool {
        let mut altered = false;
        for (related, first, second) in self.sketch.pairs() {
            if usize::from(related) == attribute {
                altered |= self.sketch.enter(first, domain) | self.sketch.enter(second, range);
            }
        }
        altered
    }

    fn merge_values(&mut self, class: usize, attribute: usize) -> Result<bool, Clash> {
        let mut altered = false;
        for object in self.members(class) {
            let object = self.sketch.present(object);
            if let [first, .., last] = self.sketch.values(word(attribute), object)[..] {
                self.sketch.merge(first, last)?;
                altered = true;
            }
        }
        Ok(altered)
    }

    /// Gives one object a value that it needs; tells whether one was missing.
    /// One at a time, since what a value brings may meet another need.
    fn supply(&mut self) -> bool {
        for axiom in &self.schema.axioms {
            let Axiom::Needs { class, attribute } = *axiom else {
                continue;
            };
            let attribute = word(attribute);
            let wanting = self
                .members(class)
                .into_iter()
                .find(|&object| self.sketch.values(attribute, object).is_empty());
            if let Some(object) = wanting {
                let value = self.value();
                self.sketch.relate(attribute, object, value);
                return true;
            }
        }
        false
    }

    fn value(&mut self) -> usize {
        let present = self.sketch.objects();
        if self.values == Values::Any && self.prng.chance(60) {
            if let Some(object) = self.prng.pick(&present) {
                return object;
            }
        }
        if self.room > 0 {
            self.room -= 1;
            return self.sketch.add_object();
        }
        self.closing()
    }

    fn closing(&mut self) -> usize {
        if let Some(object) = self.closing {
            return object;
        }
        let object = self.sketch.add_object();
        let signature = self.sketch.signature();
        for class in 0..signature.classes {
            self.sketch.enter(object, class.into());
        }
        for attribute in 0..signature.attributes {
            self.sketch.relate(attribute, object, object);
        }
        self.closing = Some(object);
        object
    }
}
