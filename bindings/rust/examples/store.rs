//! A store that keeps views, narrow ones first, as their catalogue orders them.
//! It reads a query from the first view that holds it, and filters what it has
//! read unless the query holds the view as well.

use bikuvoa::{Concept, Legality, Object, Path, Query, Schema, SchemaBuilder, State};
use bikuvoa::{StateBuilder, View};
use std::error::Error;

struct Stored {
    name: &'static str,
    view: View,
    /// The objects of the view.
    list: Vec<Object>,
}

struct Store {
    schema: Schema,
    state: State,
    views: Vec<Stored>,
}

/// The objects of a query, and where they were read.
struct Reading {
    source: String,
    objects: Vec<Object>,
}

impl Store {
    /// A store enforces its axioms: what holds of views holds in legal states.
    fn new(schema: Schema, state: State) -> Result<Self, Box<dyn Error>> {
        match schema.legal(&state)? {
            Legality::Legal => Ok(Store {
                schema,
                state,
                views: Vec::new(),
            }),
            Legality::Broken(place) => Err(format!("axiom {place} does not hold").into()),
        }
    }

    /// A refused call promises nothing of the view.
    fn holds(&self, view: &View, query: &Query) -> bool {
        self.schema.holds(query, view) == Ok(true)
    }

    /// Keeps views of the concepts, in the order of their catalogue. The views of a
    /// group have the same objects, so one of them is enough.
    fn keep(&mut self, concepts: &[(&'static str, Concept)]) -> Result<(), Box<dyn Error>> {
        let views = concepts.iter().map(|(_, c)| View::new(&self.schema, c));
        let views: Vec<View> = views.collect::<Result<_, _>>()?;
        self.views.clear();
        for group in self.schema.catalogue(&views)?.in_order() {
            let (name, _) = concepts[group[0]];
            let view = views[group[0]].clone();
            let list = self.schema.select(&view.clone().into(), &self.state)?;
            self.views.push(Stored { name, view, list });
        }
        Ok(())
    }

    fn read(&self, concept: &Concept) -> Result<Reading, Box<dyn Error>> {
        let query = Query::new(&self.schema, concept)?;
        let Some(stored) = self.views.iter().find(|v| self.holds(&v.view, &query)) else {
            return Ok(Reading {
                source: "the whole store".to_string(),
                objects: self.schema.select(&query, &self.state)?,
            });
        };
        // A query with more steps than a view may have is not asked about.
        let turned = View::new(&self.schema, concept);
        let exact = turned.is_ok_and(|turned| self.holds(&turned, &stored.view.clone().into()));
        if exact {
            return Ok(Reading {
                source: stored.name.to_string(),
                objects: stored.list.clone(),
            });
        }
        // A store would test the listed objects alone; here a selection over
        // the whole state stands in for its test.
        let wanted = self.schema.select(&query, &self.state)?;
        let listed = stored.list.iter().copied();
        Ok(Reading {
            source: format!("{}, filtered", stored.name),
            objects: listed.filter(|object| wanted.contains(object)).collect(),
        })
    }
}

/// What the program prints, line by line.
pub fn report() -> Result<Vec<String>, Box<dyn Error>> {
    // Rowers and coxes are persons, a rower wears a strap, and only persons do.
    let mut builder = SchemaBuilder::new();
    let person = builder.class("Person")?;
    let rower = builder.class("Rower")?;
    let cox = builder.class("Cox")?;
    let strap = builder.class("Strap")?;
    let wears = builder.attribute("wears")?;
    builder
        .subclass(rower, person)?
        .subclass(cox, person)?
        .necessary(rower, wears)?
        .relates(wears, person, strap)?;
    let schema = builder.build();

    // A rower, a cox with a strap, a cox without one, and one who is neither.
    let mut facts = StateBuilder::new(&schema);
    let people = [
        facts.object()?,
        facts.object()?,
        facts.object()?,
        facts.object()?,
    ];
    let straps = [facts.object()?, facts.object()?];
    for one in people {
        facts.member(person, one)?;
    }
    for (one, worn) in people.into_iter().zip(straps) {
        facts.member(strap, worn)?.pair(wears, one, worn)?;
    }
    facts.member(rower, people[0])?;
    facts.member(cox, people[1])?.member(cox, people[2])?;

    let wearing = Concept::reached(Path::empty().forward(wears, Concept::class(strap)));
    let mut store = Store::new(schema, facts.build()?)?;
    store.keep(&[
        ("persons", Concept::class(person)),
        ("rowers", Concept::class(rower)),
        ("wearers", wearing.clone()),
        // The wearers once more, since only persons wear straps.
        (
            "persons with a strap",
            Concept::both(Concept::class(person), wearing.clone()),
        ),
    ])?;

    let names: Vec<&str> = store.views.iter().map(|stored| stored.name).collect();
    let mut lines = vec![format!("views: {}", names.join(", "))];
    for (asked, concept) in [
        ("rowers", Concept::class(rower)),
        (
            "rowers with a strap",
            Concept::both(Concept::class(rower), wearing.clone()),
        ),
        (
            "coxes with a strap",
            Concept::both(Concept::class(cox), wearing),
        ),
        ("coxes", Concept::class(cox)),
        ("straps", Concept::class(strap)),
    ] {
        let Reading { source, objects } = store.read(&concept)?;
        let numbers: Vec<String> = objects.iter().map(|o| o.0.to_string()).collect();
        lines.push(format!("{asked}: {} from {source}", numbers.join(" ")));
    }
    Ok(lines)
}

fn main() -> Result<(), Box<dyn Error>> {
    for line in report()? {
        println!("{line}");
    }
    Ok(())
}
