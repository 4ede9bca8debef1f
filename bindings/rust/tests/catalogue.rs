//! Catalogues: views put in order by hand, the limits, and refusals on raw words.

use bikuvoa::layout::{self, token, Pair, Signature};
use bikuvoa::layout::{MAX_CLASSES, MAX_TOKENS, MAX_VIEWS, VIEW_STEPS};
use bikuvoa::{catalogue, raw, Attribute, Catalogued, Class, Concept, Constant, Path, Refusal};
use bikuvoa::{Schema, SchemaBuilder, View};

const PERSON: Class = Class(0);
const ROWER: Class = Class(1);
const COX: Class = Class(2);
const STRAP: Class = Class(3);
const WEARS: Attribute = Attribute(0);

/// Rowers and coxes are persons, a rower wears something, and only persons wear,
/// and only straps.
fn club() -> Schema {
    let signature = Signature {
        classes: 4,
        attributes: 1,
        constants: 2,
        loose: 0,
    };
    let mut builder = SchemaBuilder::numbered(signature).expect("few enough");
    builder.subclass(ROWER, PERSON).expect("an axiom");
    builder.subclass(COX, PERSON).expect("an axiom");
    builder.necessary(ROWER, WEARS).expect("an axiom");
    builder.relates(WEARS, PERSON, STRAP).expect("an axiom");
    builder.build()
}

fn class(class: Class) -> Concept {
    Concept::class(class)
}

/// What wears something in the landing.
fn wearing(landing: Concept) -> Concept {
    Concept::reached(Path::empty().forward(WEARS, landing))
}

fn catalogued(schema: &Schema, concepts: &[Concept]) -> Result<Catalogued, Refusal> {
    let view = |concept| View::new(schema, concept).expect("a view");
    let views: Vec<View> = concepts.iter().map(view).collect();
    let catalogued = schema.catalogue(&views)?;
    let groups = catalogued.in_order().count();
    assert_eq!(catalogued.groups, groups as u64);
    assert!(catalogued.order[groups..].iter().all(|&word| word == 0));
    assert!(catalogued.rows[views.len()..].iter().all(|&word| word == 0));
    Ok(catalogued)
}

fn in_order(schema: &Schema, concepts: &[Concept]) -> Vec<Vec<usize>> {
    let catalogued = catalogued(schema, concepts).expect("an order");
    catalogued.in_order().collect()
}

#[test]
fn the_views_of_a_club() {
    let everything = Concept::everything();
    let views = [
        class(PERSON),
        class(ROWER),
        class(STRAP),
        wearing(class(STRAP)),
        Concept::both(everything.clone(), class(PERSON)),
        class(COX),
        Concept::both(class(PERSON), wearing(everything)),
    ];
    let catalogued = catalogued(&club(), &views).expect("an order");
    let held: [&[usize]; 7] = [
        &[0, 4],
        &[0, 1, 3, 4, 6],
        &[2],
        &[0, 3, 4, 6],
        &[0, 4],
        &[0, 4, 5],
        &[0, 3, 4, 6],
    ];
    for (first, held) in held.into_iter().enumerate() {
        let by = (0..MAX_VIEWS).filter(|&second| catalogued.is_held(first, second));
        assert_eq!(by.collect::<Vec<_>>(), held, "view {first}");
    }
    assert!(!catalogued.is_held(MAX_VIEWS, 0) && !catalogued.is_held(0, MAX_VIEWS));
    // The straps may come at any time, and do when 2 is the lowest that may. The
    // wearers wait for the rowers, and the persons for all but the straps.
    let expected = [vec![1], vec![2], vec![3, 6], vec![5], vec![0, 4]];
    assert!(catalogued.in_order().eq(expected));
    assert_eq!(
        catalogued.order[..5],
        [0b10, 0b100, 0b100_1000, 0b10_0000, 0b1_0001]
    );
    assert_eq!(catalogued.groups, 5);
}

/// Two constants that are not loose name different objects, so nothing is both, and
/// what is empty in every state is held by every view.
#[test]
fn an_empty_view_comes_first() {
    let [one, other] = [0, 1].map(|number| Concept::constant(Constant(number)));
    let neither = Concept::both(one.clone(), other.clone());
    let turned = Concept::both(other, one.clone());
    let views = [Concept::everything(), one, neither, turned];
    assert_eq!(in_order(&club(), &views), [vec![2, 3], vec![1], vec![0]]);
}

/// What is both constants is held by the coxes only if there is no such thing, and
/// comes before them then.
#[test]
fn a_loose_constant_may_be_another() {
    let [one, other] = [0, 1].map(|number| Concept::constant(Constant(number)));
    let views = [class(COX), Concept::both(one, other)];
    for loose in 0b00..=0b11 {
        // The club without its axioms.
        let signature = Signature {
            loose,
            ..club().signature()
        };
        let builder = SchemaBuilder::numbered(signature).expect("few enough");
        let expected = if loose == 0 { [[1], [0]] } else { [[0], [1]] };
        assert_eq!(in_order(&builder.build(), &views), expected, "{loose}");
    }
}

#[test]
fn one_view() {
    let catalogued = catalogued(&club(), &[class(COX)]).expect("an order");
    let mut alone = [0; MAX_VIEWS];
    alone[0] = 1;
    assert_eq!((catalogued.rows, catalogued.order), (alone, alone));
    assert_eq!(catalogued.groups, 1);
}

/// A schema of classes without axioms.
fn classes() -> Schema {
    let signature = Signature {
        classes: MAX_CLASSES,
        ..Signature::default()
    };
    let builder = SchemaBuilder::numbered(signature);
    builder.expect("what may be declared").build()
}

/// As many views as there may be: apart, each in the next, each in the one before
/// it, and all the same.
#[test]
fn sixteen_views() {
    let all = || 0..MAX_VIEWS;
    let singles: Vec<Vec<usize>> = all().map(|view| vec![view]).collect();
    let apart: Vec<Concept> = (0..).map(Class).map(class).take(MAX_VIEWS).collect();
    assert_eq!(in_order(&classes(), &apart), singles);

    let narrower = |wide: &mut Concept, class: &Concept| {
        *wide = Concept::both(wide.clone(), class.clone());
        Some(wide.clone())
    };
    let chain = apart.iter().scan(Concept::everything(), narrower);
    let mut chain: Vec<Concept> = chain.collect();
    let backward: Vec<Vec<usize>> = singles.iter().rev().cloned().collect();
    assert_eq!(in_order(&classes(), &chain), backward);
    chain.reverse();
    assert_eq!(in_order(&classes(), &chain), singles);

    let same = vec![class(COX); MAX_VIEWS];
    let catalogued = catalogued(&classes(), &same).expect("an order");
    assert_eq!(catalogued.rows, [u16::MAX; MAX_VIEWS]);
    assert!(catalogued.in_order().eq([Vec::from_iter(all())]));
}

#[test]
fn no_view_and_one_more() {
    let schema = classes();
    assert_eq!(schema.catalogue(&[]), Err(Refusal::BAD_CATALOGUE));
    let view = View::new(&schema, &class(COX)).expect("a view");
    for count in [MAX_VIEWS + 1, MAX_VIEWS + 256, 1 << 16, (1 << 16) + 1] {
        let views = vec![view.clone(); count];
        assert_eq!(schema.catalogue(&views), Err(Refusal::BAD_CATALOGUE));
    }
}

fn words(tokens: &[Pair]) -> Vec<u16> {
    layout::concept(tokens)
}

/// A path of so many steps.
fn stepping(steps: usize) -> Vec<u16> {
    let mut tokens = vec![token::EMPTY];
    for _ in 0..steps {
        tokens.extend([token::EVERYTHING, token::forward(WEARS.0)]);
    }
    tokens.push(token::REACHED);
    words(&tokens)
}

/// Two views of four words each, which are accepted, with other lengths.
fn with_lengths(lengths: [u16; 2]) -> Vec<u16> {
    let mut views = layout::catalogue(&[words(&[token::EVERYTHING]), words(&[token::class(0)])]);
    views[1..3].copy_from_slice(&lengths);
    views
}

/// Records of catalogues that are refused.
fn faulty() -> Vec<(u16, Vec<u16>)> {
    let sound = words(&[token::EVERYTHING]);
    let undeclared = words(&[token::class(4)]);
    let (path, odd) = (words(&[token::EMPTY]), sound[..3].to_vec());
    let too_far = stepping(VIEW_STEPS + 1);
    let many = vec![sound.clone(); MAX_VIEWS + 1];
    let mut longer = with_lengths([4, 4]);
    longer.push(0);
    let shorter = with_lengths([4, 4])[..10].to_vec();
    let mut fewer_said = with_lengths([4, 4]);
    fewer_said[0] = 1;
    vec![
        (13, vec![]),
        (13, vec![0]),
        (13, vec![1]),
        (13, vec![2, 4]),
        (13, vec![u16::MAX]),
        (13, layout::catalogue(&many)),
        (13, longer),
        (13, shorter),
        (13, fewer_said),
        (13, with_lengths([4, 5])),
        (13, with_lengths([3, 4])),
        // Lengths that are right but for 65,536 words.
        (13, with_lengths([u16::MAX, 9])),
        (13, with_lengths([32_772, 32_772])),
        // The layout is looked at before any view.
        (13, layout::catalogue(&vec![path.clone(); MAX_VIEWS + 1])),
        // A length that is not its record's, where all is as long as it should be.
        (3, with_lengths([5, 3])),
        (3, with_lengths([3, 5])),
        (3, with_lengths([0, 8])),
        (3, with_lengths([8, 0])),
        (3, vec![1, 0]),
        (3, layout::catalogue(&[&odd])),
        // More than 65,536 words, and as many as the lengths say.
        (3, layout::catalogue(&[vec![1; 40_000], vec![1; 40_000]])),
        (4, layout::catalogue(&[&sound, &undeclared])),
        (5, layout::catalogue(&[&sound, &sound, &path])),
        (6, layout::catalogue(&[&sound, &too_far])),
        // The first view at fault is told, whatever is wrong with later ones.
        (6, layout::catalogue(&[&too_far, &odd, &undeclared])),
        (5, layout::catalogue(&[&sound, &path, &undeclared])),
        (4, layout::catalogue(&[&undeclared, &path, &sound])),
    ]
}

#[test]
fn each_faulty_catalogue_is_refused() {
    let schema = club();
    for (expected, views) in faulty() {
        let refusal = catalogue(schema.words(), &views).expect_err("a refusal");
        assert_eq!(refusal.number(), expected, "{views:?}");
        // The schema is looked at before the views.
        let refusal = catalogue(&[4, 1, 2], &views).expect_err("a refusal");
        assert_eq!(refusal, Refusal::BAD_SCHEMA_SHAPE);
    }
    assert!(catalogue(schema.words(), &with_lengths([4, 4])).is_ok());
    let farthest = layout::catalogue(&[stepping(VIEW_STEPS)]);
    assert!(catalogue(schema.words(), &farthest).is_ok());
}

/// As many views as there may be, of as many tokens and steps as there may be.
#[test]
fn the_largest_catalogue() {
    let mut concept = wearing(Concept::everything());
    for _ in 1..VIEW_STEPS {
        concept = wearing(concept);
    }
    let mut largest = Concept::both(concept.clone(), Concept::reached(Path::empty()));
    while largest.tokens().len() + 2 <= MAX_TOKENS {
        largest = Concept::both(largest, class(PERSON));
    }
    assert_eq!(largest.tokens().len(), MAX_TOKENS);
    let all: Vec<usize> = (0..MAX_VIEWS).collect();
    assert_eq!(in_order(&club(), &vec![largest; MAX_VIEWS]), [all]);
}

/// Lent words before a call, with some to spare.
const BEFORE: [u16; MAX_VIEWS + 4] = [7; MAX_VIEWS + 4];

#[test]
fn a_refused_catalogue_alters_nothing() {
    let schema = club();
    let refused = |schema: &[u16], views: &[u16], rows_words: usize, order_words: usize| {
        let (mut rows, mut order, mut groups) = (BEFORE, BEFORE, 99);
        let (lent_rows, lent_order) = (&mut rows[..rows_words], &mut order[..order_words]);
        let returned = raw::catalogue(schema, views, lent_rows, lent_order, &mut groups);
        assert_eq!((rows, order, groups), (BEFORE, BEFORE, 99));
        returned
    };
    let (few, enough) = (MAX_VIEWS - 1, MAX_VIEWS);
    for (expected, views) in faulty() {
        for (rows, order) in [(enough, enough), (few, enough), (enough, few), (0, 0)] {
            assert_eq!(refused(schema.words(), &views, rows, order), expected);
        }
    }
    // Too few of either, even where the views would need no more.
    let sound = with_lengths([4, 4]);
    for (rows, order) in [(few, enough), (enough, few), (few, few), (0, 0), (2, 2)] {
        assert_eq!(refused(schema.words(), &sound, rows, order), 11);
    }
    let unknown_axiom = layout::schema(schema.signature(), &[(0, 0)]);
    let undeclared = Signature {
        loose: 0b100,
        ..schema.signature()
    };
    let loose = layout::schema(undeclared, &[]);
    for (expected, faulty) in [(1, vec![]), (14, loose), (2, unknown_axiom)] {
        assert_eq!(refused(&faulty, &sound, enough, enough), expected);
    }
}

/// All of the first 16 words are written, and no later one.
#[test]
fn the_words_of_an_answer() {
    let schema = club();
    let (mut rows, mut order, mut groups) = (BEFORE, BEFORE, 99);
    let views = with_lengths([4, 4]);
    let returned = raw::catalogue(schema.words(), &views, &mut rows, &mut order, &mut groups);
    let (mut must_rows, mut must_order) = (BEFORE, BEFORE);
    must_rows[..MAX_VIEWS].fill(0);
    must_order[..MAX_VIEWS].fill(0);
    // The persons, view 1, are held by everything, view 0, and come before it.
    must_rows[..2].copy_from_slice(&[0b01, 0b11]);
    must_order[..2].copy_from_slice(&[0b10, 0b01]);
    assert_eq!(returned, 0);
    assert_eq!((rows, order, groups), (must_rows, must_order, 2));
}

#[test]
fn views_are_read_as_they_were_laid_out() {
    let views = [vec![], vec![5], vec![1, 0, 2, 0]];
    let words = layout::catalogue(&views);
    assert_eq!(words, [3, 0, 1, 4, 5, 1, 0, 2, 0]);
    let read = layout::views(&words).expect("a catalogue");
    assert!(read.iter().eq(&views));
    assert_eq!(layout::views(&words[..8]), None);
    let longer = [&words[..], &[0]].concat();
    assert_eq!(layout::views(&longer), None);
    assert_eq!(layout::views(&[2, 1]), None);
    assert_eq!(layout::views(&[]), None);
    let none: [&[u16]; 0] = [];
    assert_eq!(layout::catalogue(&none), [0]);
    assert_eq!(layout::views(&[0]), Some(vec![]));
}
