//! Refused records: which word is at fault, and what is said of it.

use bik::refused::{in_record, spot, Role, Sort, Spot};
use bikuvoa::layout::{self, axiom, fact, token, Pair, Signature};
use bikuvoa::{catalogue, check_concept, check_query, check_view, Refusal, Schema, State};

const SIGNATURE: Signature = Signature {
    classes: 3,
    attributes: 2,
    constants: 3,
    loose: 0b100,
};

fn schema() -> Vec<u16> {
    layout::schema(SIGNATURE, &[])
}

fn schema_spot(words: &[u16]) -> (u16, Spot) {
    let refusal = Schema::from_words(words.to_vec()).expect_err("a faulty schema");
    (refusal.number(), spot(Sort::Schema, words, refusal))
}

fn concept_spot(role: Role, words: &[u16]) -> (u16, Spot) {
    let schema = &schema();
    let checked = match role {
        Role::Plain => check_concept(schema, words),
        Role::Query => check_query(schema, words),
        Role::View => check_view(schema, words),
    };
    let refusal = checked.expect_err("a faulty concept");
    let sort = Sort::Concept { schema, role };
    (refusal.number(), spot(sort, words, refusal))
}

fn state_refusal(words: &[u16]) -> Refusal {
    let schema = Schema::from_words(schema()).expect("a schema");
    State::from_words(&schema, words.to_vec()).expect_err("a faulty state")
}

fn state_spot(words: &[u16]) -> (u16, Spot) {
    let (schema, refusal) = (&schema(), state_refusal(words));
    (
        refusal.number(),
        spot(Sort::State { schema }, words, refusal),
    )
}

#[test]
fn schemas() {
    let good = axiom::subclass(0, 1);
    let with = |axioms: &[Pair]| layout::schema(SIGNATURE, axioms);
    assert_eq!(schema_spot(&[3, 2]), (1, Spot::Whole));
    assert_eq!(schema_spot(&[25, 0, 0, 0, 0]), (1, Spot::Size(0)));
    assert_eq!(schema_spot(&[24, 9, 0, 0, 0]), (1, Spot::Size(1)));
    assert_eq!(schema_spot(&[24, 8, 5, 0, 0]), (1, Spot::Size(2)));
    assert_eq!(schema_spot(&[24, 8, 4, 1, 0]), (1, Spot::Size(3)));
    assert_eq!(schema_spot(&with(&[good; 97])), (1, Spot::Size(3)));
    assert_eq!(schema_spot(&[24, 8, 3, 0, 8]), (14, Spot::Size(4)));
    let axioms = [good, good, (6 * 256, 0), good];
    assert_eq!(schema_spot(&with(&axioms)), (2, Spot::Entry(2)));
    let axioms = [axiom::subclass(0, 3), good];
    assert_eq!(schema_spot(&with(&axioms)), (2, Spot::Entry(0)));
}

#[test]
fn concepts() {
    use token::{
        backward, class, constant, forward, mark, BOTH, COMMON, EMPTY, EVERYTHING, REACHED,
    };
    let query = |tokens: &[Pair]| concept_spot(Role::Query, &layout::concept(tokens));
    assert_eq!(concept_spot(Role::Query, &[1]), (3, Spot::Whole));
    assert_eq!(query(&[]), (3, Spot::Size(0)));
    assert_eq!(concept_spot(Role::Query, &[2, 0, 1, 0]), (3, Spot::Size(0)));
    assert_eq!(query(&[EVERYTHING; 65]), (3, Spot::Size(0)));

    assert_eq!(query(&[class(0), class(3), (11, 0)]), (4, Spot::Entry(1)));
    assert_eq!(
        query(&[constant(2), constant(3), BOTH]),
        (4, Spot::Entry(1))
    );
    assert_eq!(
        query(&[EMPTY, mark(4), forward(0), REACHED]),
        (4, Spot::Entry(1))
    );
    assert_eq!(
        query(&[EMPTY, mark(3), backward(2), REACHED]),
        (4, Spot::Entry(2))
    );
    let marked = layout::concept(&[class(0), mark(0), BOTH]);
    assert_eq!(concept_spot(Role::View, &marked), (4, Spot::Entry(1)));
    assert_eq!(concept_spot(Role::Plain, &marked), (4, Spot::Entry(1)));

    assert_eq!(
        query(&[class(0), EMPTY, BOTH, class(0)]),
        (5, Spot::Entry(2))
    );
    assert_eq!(query(&[EMPTY, class(0), REACHED]), (5, Spot::Entry(2)));
    assert_eq!(query(&[class(0), EMPTY, COMMON]), (5, Spot::Entry(2)));
    assert_eq!(query(&[EMPTY, EMPTY, forward(0)]), (5, Spot::Entry(2)));
    assert_eq!(
        query(&[class(0), class(0), backward(1)]),
        (5, Spot::Entry(2))
    );
    assert_eq!(query(&[class(0), class(0)]), (5, Spot::Whole));
    assert_eq!(query(&[EMPTY]), (5, Spot::Whole));
    let step = [EMPTY, class(0), forward(0)];
    let stepped = [&step[..], &step, &[COMMON, EMPTY, REACHED, BOTH, BOTH]].concat();
    assert_eq!(query(&stepped), (5, Spot::Entry(10)));

    assert_eq!(concept_spot(Role::Query, &[1, 1, 2, 0]), (6, Spot::Size(1)));
    let long = |steps: usize| {
        let mut tokens = vec![EMPTY];
        tokens.extend([EVERYTHING, forward(1)].repeat(steps));
        tokens.push(REACHED);
        layout::concept(&tokens)
    };
    assert_eq!(concept_spot(Role::View, &long(8)), (6, Spot::Entry(14)));
    assert_eq!(concept_spot(Role::Query, &long(17)), (6, Spot::Entry(34)));
    assert_eq!(concept_spot(Role::Plain, &long(18)), (6, Spot::Entry(34)));
}

#[test]
fn states() {
    use fact::{choice, member, name, pair};
    let named = [name(0, 0), name(1, 1), name(2, 1)];
    let of = |first: &[Pair], last: &[Pair]| {
        let facts = [first, last].concat();
        state_spot(&layout::state(4, &facts))
    };
    assert_eq!(state_spot(&[4, 0]), (7, Spot::Whole));
    assert_eq!(state_spot(&[481, 0, 0]), (7, Spot::Size(0)));
    assert_eq!(state_spot(&[480, 1, 0]), (7, Spot::Size(1)));
    let many = layout::state(4, &vec![member(0, 0); 15_385]);
    assert_eq!(state_spot(&many), (7, Spot::Size(1)));

    assert_eq!(
        of(&[member(0, 0), member(3, 0)], &named),
        (8, Spot::Entry(1))
    );
    assert_eq!(
        of(&[member(0, 0), pair(0, 1, 4)], &named),
        (8, Spot::Entry(1))
    );
    assert_eq!(of(&[(0, 1)], &named), (8, Spot::Entry(0)));
    assert_eq!(
        of(&[member(0, 0), member(0, 2), member(0, 1)], &named),
        (9, Spot::Entry(2))
    );
    assert_eq!(
        of(&[member(0, 0), member(0, 0)], &named),
        (9, Spot::Entry(1))
    );
    let mut miscounted = layout::state(4, &named);
    miscounted[2] = 1;
    assert_eq!(state_spot(&miscounted), (15, Spot::Size(2)));

    assert_eq!(of(&[member(0, 0)], &named[..2]), (10, Spot::Whole));
    assert_eq!(of(&[], &named[1..]), (10, Spot::Whole));
    assert_eq!(
        of(&[member(0, 0), name(0, 1)], &named[1..]),
        (10, Spot::Entry(2))
    );
    assert_eq!(
        of(&[name(0, 0), name(0, 2)], &named[1..]),
        (10, Spot::Entry(1))
    );
    assert_eq!(
        of(&named, &[name(2, 2), choice(0, 0)]),
        (10, Spot::Entry(3))
    );
    let choices = [choice(0, 1), choice(2, 0), choice(2, 3), choice(3, 0)];
    assert_eq!(of(&named, &choices), (10, Spot::Entry(5)));
}

#[test]
fn catalogues() {
    use token::{class, forward, EMPTY, EVERYTHING, REACHED};
    let good = layout::concept(&[EVERYTHING]);
    let bad = layout::concept(&[EMPTY, class(3), forward(0), REACHED]);
    let told = |words: &[u16]| {
        let schema = &schema();
        let refusal = catalogue(schema, words).expect_err("a faulty catalogue");
        let sort = Sort::Catalogue { schema };
        let fault = in_record("c.bin", sort, words, refusal).to_string();
        (refusal.number(), spot(sort, words, refusal), fault)
    };
    let (number, place, fault) = told(&layout::catalogue(&[&good, &bad, &good]));
    assert_eq!((number, place), (4, Spot::Entry(1)));
    let text = "is refused as 4: query or view: a token of unknown sort, with an argument that is \
                not declared or should be 0, or a mark where none may be";
    assert_eq!(
        fault,
        format!("c.bin: word 11: view 1 {text}; its right word is word 15")
    );
    let (number, place, fault) = told(&layout::catalogue(&[&good[..3]]));
    assert_eq!((number, place), (3, Spot::Entry(0)));
    assert!(
        fault.starts_with("c.bin: word 2: view 0 is refused as 3: "),
        "{fault}"
    );
    let (number, place, fault) = told(&layout::catalogue(&[&good[..0]]));
    assert_eq!((number, place), (3, Spot::Entry(0)));
    assert!(
        fault.starts_with("c.bin: word 2: view 0 is refused as 3: "),
        "{fault}"
    );

    let (number, place, fault) = told(&[0]);
    assert_eq!((number, place), (13, Spot::Size(0)));
    assert!(
        fault.starts_with("c.bin: word 0: refused as 13: "),
        "{fault}"
    );
    let (number, place, _) = told(&layout::catalogue(&vec![good; 17]));
    assert_eq!((number, place), (13, Spot::Size(0)));
    let (number, place, fault) = told(&[2, 4, 4, 1, 0, 2, 0]);
    assert_eq!((number, place), (13, Spot::Whole));
    assert!(fault.starts_with("c.bin: refused as 13: "), "{fault}");
    assert_eq!(told(&[]).1, Spot::Whole);
}

#[test]
fn words_and_texts() {
    let (schema, words) = (schema(), layout::state(4, &[fact::member(0, 0), (0, 1)]));
    let sort = Sort::State { schema: &schema };
    let fault = in_record("s.bin", sort, &words, state_refusal(&words)).to_string();
    let text =
        "state: a fact of a kind that is not declared or of a mark that is not used, with an \
                object that is not there, or with a right word that should be 0";
    let expected = format!("s.bin: word 4: refused as 8: {text}; its right word is word 6");
    assert_eq!(fault, expected);
}
