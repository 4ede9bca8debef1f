//! A rowing club. It keeps a list of the persons whose strap has recorded a beat
//! of a session. May the rowers who attend a session be looked for in that list,
//! and may the list be looked for among those rowers? And where may those be looked
//! for who attend the very session that their strap has recorded?

use bikuvoa::{BuildError, Concept, Decision, Fact, Mark, Object, Path, Query, Schema};
use bikuvoa::{SchemaBuilder, View};

pub struct Club {
    pub schema: Schema,
    /// Rowers who attend a session.
    pub rowers: Concept,
    /// Persons whose strap has recorded a beat during a session.
    pub recorded: Concept,
    /// Those who attend a session of which their strap has recorded a beat. One
    /// mark in two places says that it is the same session.
    pub present: Concept,
}

pub fn club() -> Result<Club, BuildError> {
    let mut builder = SchemaBuilder::new();
    let person = builder.class("Person")?;
    let rower = builder.class("Rower")?;
    let strap = builder.class("Strap")?;
    let session = builder.class("Session")?;
    let beat = builder.class("Beat")?;
    let wears = builder.attribute("wears")?;
    let records = builder.attribute("records")?;
    let during = builder.attribute("during")?;
    let attends = builder.attribute("attends")?;
    builder
        .single(person, wears)?
        .subclass(rower, person)?
        .necessary(rower, wears)?
        .relates(wears, person, strap)?
        .necessary(strap, records)?
        .relates(records, strap, beat)?
        .necessary(beat, during)?
        .single(beat, during)?
        .relates(during, beat, session)?
        .relates(attends, person, session)?;

    let attending = |one| Concept::reached(Path::empty().forward(attends, one));
    let recording = |one| {
        let worn = Path::empty().forward(wears, Concept::class(strap));
        let beats = worn.forward(records, Concept::everything());
        Concept::reached(beats.forward(during, one))
    };
    let some = || Concept::class(session);
    let same = || Concept::mark(Mark(0));
    Ok(Club {
        schema: builder.build(),
        rowers: Concept::both(Concept::class(rower), attending(some())),
        recorded: Concept::both(Concept::class(person), recording(some())),
        present: Concept::both(attending(same()), recording(same())),
    })
}

impl Club {
    pub fn decide(&self, query: &Concept, view: &Concept) -> Result<Decision, BuildError> {
        let query = Query::new(&self.schema, query)?;
        let view = View::new(&self.schema, view)?;
        Ok(self.schema.decide(&query, &view))
    }

    fn told(&self, decision: &Decision) -> Vec<String> {
        match decision {
            Decision::Held => vec!["HELD".to_string()],
            Decision::Refused(refusal) => vec![refusal.to_string()],
            Decision::Open { state, object } => {
                let (objects, Object(number)) = (state.objects(), object);
                let mut lines = vec![format!("OPEN, object {number} of {objects}")];
                lines.extend(state.facts().map(|fact| self.told_fact(fact)));
                lines
            }
        }
    }

    fn told_fact(&self, fact: Fact) -> String {
        let named = |name: Option<&str>| name.unwrap_or("?").to_string();
        match fact {
            Fact::Member {
                class,
                object: Object(object),
            } => format!("  {object} is a {}", named(self.schema.class_name(class))),
            Fact::Pair {
                attribute,
                first: Object(first),
                second: Object(second),
            } => {
                let attribute = named(self.schema.attribute_name(attribute));
                format!("  {first} {attribute} {second}")
            }
            Fact::Name {
                constant,
                object: Object(object),
            } => {
                let constant = named(self.schema.constant_name(constant));
                format!("  {constant} is {object}")
            }
            Fact::Choice {
                mark: Mark(mark),
                object: Object(object),
            } => format!("  mark {mark} is {object}"),
        }
    }
}

/// What the program prints, line by line.
pub fn report() -> Result<Vec<String>, BuildError> {
    let club = club()?;
    let mut lines = vec!["Rowers in the list of the recorded:".to_string()];
    lines.extend(club.told(&club.decide(&club.rowers, &club.recorded)?));
    lines.push("The recorded in a list of the rowers:".to_string());
    lines.extend(club.told(&club.decide(&club.recorded, &club.rowers)?));
    lines.push("Those present, in the list of the recorded:".to_string());
    lines.extend(club.told(&club.decide(&club.present, &club.recorded)?));
    lines.push("Those present, in a list of the rowers:".to_string());
    lines.extend(club.told(&club.decide(&club.present, &club.rowers)?));
    Ok(lines)
}

fn main() -> Result<(), BuildError> {
    for line in report()? {
        println!("{line}");
    }
    Ok(())
}
