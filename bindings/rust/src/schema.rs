//! Schemas: what is declared, and the axioms.

use crate::error::{BuildError, Item};
use crate::layout::{self, axiom, Pair, Signature};
use crate::layout::{MAX_ATTRIBUTES, MAX_AXIOMS, MAX_CLASSES, MAX_CONSTANTS};
use crate::named::numbers;
use crate::raw;
use crate::refusal::Refusal;

/// A class, by its number. A number means what the schema at hand declares
/// under it, so take it from that schema.
#[derive(Clone, Copy, Debug, PartialEq, Eq, PartialOrd, Ord, Hash)]
pub struct Class(pub u16);

/// An attribute, by its number.
#[derive(Clone, Copy, Debug, PartialEq, Eq, PartialOrd, Ord, Hash)]
pub struct Attribute(pub u16);

/// A constant, by its number. It names an object, which is no other constant's
/// unless one of the two is loose.
#[derive(Clone, Copy, Debug, PartialEq, Eq, PartialOrd, Ord, Hash)]
pub struct Constant(pub u16);

/// What every legal state obeys.
#[derive(Clone, Copy, Debug, PartialEq, Eq, Hash)]
pub enum Axiom {
    /// Each object of the class is in the superclass.
    Subclass { class: Class, superclass: Class },
    /// Each value of the attribute at an object of the class is in `values`.
    Typing {
        class: Class,
        attribute: Attribute,
        values: Class,
    },
    /// Each object of the class has at least one value of the attribute.
    Necessary { class: Class, attribute: Attribute },
    /// Each object of the class has at most one value of the attribute.
    Single { class: Class, attribute: Attribute },
    /// In each pair of the attribute the first object is in the domain and the
    /// second in the range.
    Relates {
        attribute: Attribute,
        domain: Class,
        range: Class,
    },
}

impl Axiom {
    /// The axiom's left and right word.
    pub fn words(self) -> Pair {
        match self {
            Axiom::Subclass { class, superclass } => axiom::subclass(class.0, superclass.0),
            Axiom::Typing {
                class,
                attribute,
                values,
            } => axiom::typing(class.0, attribute.0, values.0),
            Axiom::Necessary { class, attribute } => axiom::necessary(class.0, attribute.0),
            Axiom::Single { class, attribute } => axiom::single(class.0, attribute.0),
            Axiom::Relates {
                attribute,
                domain,
                range,
            } => axiom::relates(attribute.0, domain.0, range.0),
        }
    }

    /// The axiom with these words, if they are of a known kind.
    pub fn from_words(words: Pair) -> Option<Self> {
        let (subject, right) = (axiom::subject(words), words.1);
        let (first, second) = axiom::two(words);
        Some(match axiom::kind(words) {
            axiom::SUBCLASS => Axiom::Subclass {
                class: Class(subject),
                superclass: Class(right),
            },
            axiom::TYPING => Axiom::Typing {
                class: Class(subject),
                attribute: Attribute(first),
                values: Class(second),
            },
            axiom::NECESSARY => Axiom::Necessary {
                class: Class(subject),
                attribute: Attribute(right),
            },
            axiom::SINGLE => Axiom::Single {
                class: Class(subject),
                attribute: Attribute(right),
            },
            axiom::RELATES => Axiom::Relates {
                attribute: Attribute(subject),
                domain: Class(first),
                range: Class(second),
            },
            _ => return None,
        })
    }
}

impl Signature {
    pub(crate) fn check_class(self, Class(number): Class) -> Result<(), BuildError> {
        check(Item::Class, number, self.classes)
    }

    pub(crate) fn check_attribute(self, Attribute(number): Attribute) -> Result<(), BuildError> {
        check(Item::Attribute, number, self.attributes)
    }

    pub(crate) fn check_constant(self, Constant(number): Constant) -> Result<(), BuildError> {
        check(Item::Constant, number, self.constants)
    }

    fn check_axiom(self, axiom: Axiom) -> Result<(), BuildError> {
        match axiom {
            Axiom::Subclass { class, superclass } => {
                self.check_class(class)?;
                self.check_class(superclass)
            }
            Axiom::Necessary { class, attribute } | Axiom::Single { class, attribute } => {
                self.check_class(class)?;
                self.check_attribute(attribute)
            }
            Axiom::Typing {
                class: one,
                attribute,
                values: other,
            }
            | Axiom::Relates {
                attribute,
                domain: one,
                range: other,
            } => {
                self.check_class(one)?;
                self.check_class(other)?;
                self.check_attribute(attribute)
            }
        }
    }
}

pub(crate) fn check(what: Item, number: u16, declared: u16) -> Result<(), BuildError> {
    if number < declared {
        Ok(())
    } else {
        Err(BuildError::Undeclared { what, number })
    }
}

/// What is declared of one sort, by number; not all of it need have a name.
#[derive(Clone, Debug, PartialEq, Eq)]
struct Names {
    what: Item,
    limit: u16,
    names: Vec<Option<String>>,
}

impl Names {
    const fn new(what: Item, limit: u16) -> Self {
        Names {
            what,
            limit,
            names: Vec::new(),
        }
    }

    /// There are never more than the limit, which is a word.
    fn count(&self) -> u16 {
        self.names.len() as u16
    }

    fn declare(&mut self, name: Option<&str>) -> Result<u16, BuildError> {
        let what = self.what;
        if let Some(taken) = name.filter(|name| self.find(name).is_ok()) {
            let name = taken.to_string();
            return Err(BuildError::NameTaken { what, name });
        }
        let number = self.count();
        if number == self.limit {
            let limit = self.limit.into();
            return Err(BuildError::TooMany { what, limit });
        }
        self.names.push(name.map(str::to_string));
        Ok(number)
    }

    fn declare_unnamed(&mut self, count: u16) -> Result<(), BuildError> {
        for _ in 0..count {
            self.declare(None)?;
        }
        Ok(())
    }

    fn find(&self, name: &str) -> Result<u16, BuildError> {
        let numbered = (0..).zip(&self.names);
        let mut found = numbered.filter(|(_, known)| known.as_deref() == Some(name));
        match found.next() {
            Some((number, _)) => Ok(number),
            None => Err(BuildError::UnknownName {
                what: self.what,
                name: name.to_string(),
            }),
        }
    }

    fn name(&self, number: u16) -> Option<&str> {
        self.names.get(usize::from(number))?.as_deref()
    }
}

#[derive(Clone, Debug, PartialEq, Eq)]
struct Declared {
    classes: Names,
    attributes: Names,
    constants: Names,
}

impl Declared {
    const fn new() -> Self {
        Declared {
            classes: Names::new(Item::Class, MAX_CLASSES),
            attributes: Names::new(Item::Attribute, MAX_ATTRIBUTES),
            constants: Names::new(Item::Constant, MAX_CONSTANTS),
        }
    }
}

/// Declares classes, attributes and constants, and states axioms about them.
#[derive(Clone, Debug)]
pub struct SchemaBuilder {
    declared: Declared,
    /// The loose word of the signature.
    loose: u16,
    axioms: Vec<Axiom>,
}

impl SchemaBuilder {
    /// Nothing declared.
    pub fn new() -> Self {
        SchemaBuilder {
            declared: Declared::new(),
            loose: 0,
            axioms: Vec::new(),
        }
    }

    /// So much declared, without names: from [`Class`]`(0)` on, and so forth. The
    /// constants that are marked loose must be declared.
    pub fn numbered(signature: Signature) -> Result<Self, BuildError> {
        let mut builder = SchemaBuilder::new();
        let declared = &mut builder.declared;
        declared.classes.declare_unnamed(signature.classes)?;
        declared.attributes.declare_unnamed(signature.attributes)?;
        declared.constants.declare_unnamed(signature.constants)?;
        for constant in numbers(signature.loose.into()).map(Constant) {
            builder.loose(constant)?;
        }
        Ok(builder)
    }

    /// Declares a class.
    pub fn class(&mut self, name: &str) -> Result<Class, BuildError> {
        self.declared.classes.declare(Some(name)).map(Class)
    }

    /// Declares an attribute.
    pub fn attribute(&mut self, name: &str) -> Result<Attribute, BuildError> {
        self.declared.attributes.declare(Some(name)).map(Attribute)
    }

    /// Declares a constant.
    pub fn constant(&mut self, name: &str) -> Result<Constant, BuildError> {
        self.declared.constants.declare(Some(name)).map(Constant)
    }

    /// Marks a declared constant as loose: it may name the same object as any
    /// other constant.
    pub fn loose(&mut self, constant: Constant) -> Result<&mut Self, BuildError> {
        self.signature().check_constant(constant)?;
        self.loose |= 1 << constant.0;
        Ok(self)
    }

    /// States an axiom, after those already stated. It may repeat one of them.
    pub fn axiom(&mut self, axiom: Axiom) -> Result<&mut Self, BuildError> {
        self.signature().check_axiom(axiom)?;
        if self.axioms.len() == MAX_AXIOMS {
            return Err(BuildError::TooMany {
                what: Item::Axiom,
                limit: MAX_AXIOMS,
            });
        }
        self.axioms.push(axiom);
        Ok(self)
    }

    /// States [`Axiom::Subclass`].
    pub fn subclass(&mut self, class: Class, superclass: Class) -> Result<&mut Self, BuildError> {
        self.axiom(Axiom::Subclass { class, superclass })
    }

    /// States [`Axiom::Typing`].
    pub fn typing(
        &mut self,
        class: Class,
        attribute: Attribute,
        values: Class,
    ) -> Result<&mut Self, BuildError> {
        self.axiom(Axiom::Typing {
            class,
            attribute,
            values,
        })
    }

    /// States [`Axiom::Necessary`].
    pub fn necessary(
        &mut self,
        class: Class,
        attribute: Attribute,
    ) -> Result<&mut Self, BuildError> {
        self.axiom(Axiom::Necessary { class, attribute })
    }

    /// States [`Axiom::Single`].
    pub fn single(&mut self, class: Class, attribute: Attribute) -> Result<&mut Self, BuildError> {
        self.axiom(Axiom::Single { class, attribute })
    }

    /// States [`Axiom::Relates`].
    pub fn relates(
        &mut self,
        attribute: Attribute,
        domain: Class,
        range: Class,
    ) -> Result<&mut Self, BuildError> {
        self.axiom(Axiom::Relates {
            attribute,
            domain,
            range,
        })
    }

    /// The schema so far.
    pub fn build(&self) -> Schema {
        let axioms: Vec<Pair> = self.axioms.iter().map(|axiom| axiom.words()).collect();
        Schema {
            words: layout::schema(self.signature(), &axioms),
            names: self.declared.clone(),
        }
    }

    fn signature(&self) -> Signature {
        Signature {
            classes: self.declared.classes.count(),
            attributes: self.declared.attributes.count(),
            constants: self.declared.constants.count(),
            loose: self.loose,
        }
    }
}

impl Default for SchemaBuilder {
    fn default() -> Self {
        SchemaBuilder::new()
    }
}

/// A schema whose record is accepted, with the names that it was built with.
#[derive(Clone, Debug, PartialEq, Eq)]
pub struct Schema {
    words: Vec<u16>,
    names: Declared,
}

impl Schema {
    /// The schema of a record, without names; the library checks the record.
    pub fn from_words(words: Vec<u16>) -> Result<Self, Refusal> {
        // A state of no words is refused, but only after the schema is accepted.
        let returned = raw::legal(&words, &[], &mut 0);
        Refusal::check_before(Refusal::BAD_STATE_SHAPE, returned)?;
        let names = Declared::new();
        Ok(Schema { words, names })
    }

    /// The record.
    pub fn words(&self) -> &[u16] {
        &self.words
    }

    /// How much is declared, and which constants are loose.
    pub fn signature(&self) -> Signature {
        Signature::of(&self.words).unwrap_or_default()
    }

    /// Whether the constant is loose; not so of one that is not declared.
    pub fn is_loose(&self, Constant(number): Constant) -> bool {
        self.signature().is_loose(number)
    }

    /// The class of that name.
    pub fn class(&self, name: &str) -> Result<Class, BuildError> {
        self.names.classes.find(name).map(Class)
    }

    /// The attribute of that name.
    pub fn attribute(&self, name: &str) -> Result<Attribute, BuildError> {
        self.names.attributes.find(name).map(Attribute)
    }

    /// The constant of that name.
    pub fn constant(&self, name: &str) -> Result<Constant, BuildError> {
        self.names.constants.find(name).map(Constant)
    }

    /// The class's name, if it has one.
    pub fn class_name(&self, Class(number): Class) -> Option<&str> {
        self.names.classes.name(number)
    }

    /// The attribute's name, if it has one.
    pub fn attribute_name(&self, Attribute(number): Attribute) -> Option<&str> {
        self.names.attributes.name(number)
    }

    /// The constant's name, if it has one.
    pub fn constant_name(&self, Constant(number): Constant) -> Option<&str> {
        self.names.constants.name(number)
    }

    /// The axioms in the order of the record.
    pub fn axioms(&self) -> impl Iterator<Item = Axiom> + '_ {
        let entries = layout::SCHEMA.entries(&self.words);
        entries.into_iter().flatten().filter_map(Axiom::from_words)
    }
}
