//! The eleven functions as C has them (include/bikuvoa.h), on slices: any words
//! may be passed. Each returns 0, or the number of the first refusal that
//! applies; a refused call alters no lent word and no out value.
//!
//! This is the one module with unsafe code.

extern "C" {
    fn bikuvoa_check_concept(
        schema: *const u16,
        schema_words: usize,
        query: *const u16,
        query_words: usize,
        classes: *mut u32,
        attributes: *mut u32,
        named: *mut u64,
    ) -> u16;

    fn bikuvoa_check_query(
        schema: *const u16,
        schema_words: usize,
        query: *const u16,
        query_words: usize,
        classes: *mut u32,
        attributes: *mut u32,
        named: *mut u64,
    ) -> u16;

    fn bikuvoa_check_view(
        schema: *const u16,
        schema_words: usize,
        view: *const u16,
        view_words: usize,
        classes: *mut u32,
        attributes: *mut u32,
        named: *mut u64,
    ) -> u16;

    fn bikuvoa_select(
        schema: *const u16,
        schema_words: usize,
        query: *const u16,
        query_words: usize,
        state: *const u16,
        state_words: usize,
        lent: *mut u16,
        lent_words: usize,
        selected: *mut u64,
    ) -> u16;

    fn bikuvoa_legal(
        schema: *const u16,
        schema_words: usize,
        state: *const u16,
        state_words: usize,
        broken: *mut u64,
    ) -> u16;

    fn bikuvoa_counterexample(
        schema: *const u16,
        schema_words: usize,
        query: *const u16,
        query_words: usize,
        view: *const u16,
        view_words: usize,
        state: *const u16,
        state_words: usize,
        found: *mut u64,
    ) -> u16;

    fn bikuvoa_links_by_first(
        schema: *const u16,
        schema_words: usize,
        query: *const u16,
        query_words: usize,
        state: *const u16,
        state_words: usize,
        attribute: u16,
        links: *mut u64,
    ) -> u16;

    fn bikuvoa_links_by_second(
        schema: *const u16,
        schema_words: usize,
        query: *const u16,
        query_words: usize,
        state: *const u16,
        state_words: usize,
        attribute: u16,
        links: *mut u64,
    ) -> u16;

    fn bikuvoa_decide(
        schema: *const u16,
        schema_words: usize,
        query: *const u16,
        query_words: usize,
        view: *const u16,
        view_words: usize,
        lent: *mut u16,
        lent_words: usize,
        objects: *mut u64,
        object: *mut u64,
    ) -> u16;

    fn bikuvoa_holds(
        schema: *const u16,
        schema_words: usize,
        query: *const u16,
        query_words: usize,
        view: *const u16,
        view_words: usize,
        held: *mut u64,
    ) -> u16;

    fn bikuvoa_catalogue(
        schema: *const u16,
        schema_words: usize,
        views: *const u16,
        views_words: usize,
        rows: *mut u16,
        rows_words: usize,
        order: *mut u16,
        order_words: usize,
        groups: *mut u64,
    ) -> u16;
}

/// Enough stack for any call. It is measured, not proved; a thread of the
/// standard library has more unless it was made with less.
pub const STACK_BYTES: usize = 512 * 1024;

/// Checks a query without marks by itself and tells what it names. `classes`
/// becomes its class set: bit A, counted from the lowest, is 1 exactly if a token
/// names class A. `attributes` becomes its attribute set, where bit P is 1 exactly
/// if a step names attribute P. `named` becomes how many classes are named, each
/// counted once. Refused as 4 if it has a mark.
pub fn check_concept(
    schema: &[u16],
    query: &[u16],
    classes: &mut u32,
    attributes: &mut u32,
    named: &mut u64,
) -> u16 {
    // SAFETY: as for `select`.
    unsafe {
        bikuvoa_check_concept(
            schema.as_ptr(),
            schema.len(),
            query.as_ptr(),
            query.len(),
            classes,
            attributes,
            named,
        )
    }
}

/// The same as `check_concept`, of a query that may have marks: refused as 4 only
/// if a mark is above the last.
pub fn check_query(
    schema: &[u16],
    query: &[u16],
    classes: &mut u32,
    attributes: &mut u32,
    named: &mut u64,
) -> u16 {
    // SAFETY: as for `select`.
    unsafe {
        bikuvoa_check_query(
            schema.as_ptr(),
            schema.len(),
            query.as_ptr(),
            query.len(),
            classes,
            attributes,
            named,
        )
    }
}

/// The same as `check_concept`, of a view: refused as 6 if it has more steps than
/// a view may have.
pub fn check_view(
    schema: &[u16],
    view: &[u16],
    classes: &mut u32,
    attributes: &mut u32,
    named: &mut u64,
) -> u16 {
    // SAFETY: as for `select`.
    unsafe {
        bikuvoa_check_view(
            schema.as_ptr(),
            schema.len(),
            view.as_ptr(),
            view.len(),
            classes,
            attributes,
            named,
        )
    }
}

/// Lent word i becomes 1 if object i is in the query, which has no marks, and 0 if
/// not, for each object of the state; later words are unaltered. `selected` becomes
/// how many are. Refused as 11 if there are fewer lent words than objects.
pub fn select(
    schema: &[u16],
    query: &[u16],
    state: &[u16],
    lent: &mut [u16],
    selected: &mut u64,
) -> u16 {
    // SAFETY: each pointer is a slice's, never null even if the slice is empty,
    // and comes with that slice's length. What is written is borrowed mutably,
    // so nothing else has it during the call, and nothing is kept after it.
    unsafe {
        bikuvoa_select(
            schema.as_ptr(),
            schema.len(),
            query.as_ptr(),
            query.len(),
            state.as_ptr(),
            state.len(),
            lent.as_mut_ptr(),
            lent.len(),
            selected,
        )
    }
}

/// `broken` becomes 0 if every axiom holds in the state, and otherwise i + 1,
/// where axiom i is the first broken one.
pub fn legal(schema: &[u16], state: &[u16], broken: &mut u64) -> u16 {
    // SAFETY: as for `select`.
    unsafe {
        bikuvoa_legal(
            schema.as_ptr(),
            schema.len(),
            state.as_ptr(),
            state.len(),
            broken,
        )
    }
}

/// `found` becomes o + 1, where o is the lowest object in the query and outside
/// the view, if the state is legal and has one, and otherwise 0. The state says
/// which object each mark is: refused as 10 if a mark that the query uses has no
/// object or several, and as 8 if another mark has one.
pub fn counterexample(
    schema: &[u16],
    query: &[u16],
    view: &[u16],
    state: &[u16],
    found: &mut u64,
) -> u16 {
    // SAFETY: as for `select`.
    unsafe {
        bikuvoa_counterexample(
            schema.as_ptr(),
            schema.len(),
            query.as_ptr(),
            query.len(),
            view.as_ptr(),
            view.len(),
            state.as_ptr(),
            state.len(),
            found,
        )
    }
}

/// A link is a pair of the attribute: a first object with a second as its value.
/// `links` becomes how many links have their first object in the query, which has
/// no marks: for each object in the query, how many values of the attribute it has,
/// summed. Refused as 12 if the attribute is not declared.
pub fn links_by_first(
    schema: &[u16],
    query: &[u16],
    state: &[u16],
    attribute: u16,
    links: &mut u64,
) -> u16 {
    // SAFETY: as for `select`.
    unsafe {
        bikuvoa_links_by_first(
            schema.as_ptr(),
            schema.len(),
            query.as_ptr(),
            query.len(),
            state.as_ptr(),
            state.len(),
            attribute,
            links,
        )
    }
}

/// `links` becomes the same number as with `links_by_first`, from the other side:
/// for each object, how many objects in the query have it as a value of the
/// attribute, summed. Refused as 12 if the attribute is not declared.
pub fn links_by_second(
    schema: &[u16],
    query: &[u16],
    state: &[u16],
    attribute: u16,
    links: &mut u64,
) -> u16 {
    // SAFETY: as for `select`.
    unsafe {
        bikuvoa_links_by_second(
            schema.as_ptr(),
            schema.len(),
            query.as_ptr(),
            query.len(),
            state.as_ptr(),
            state.len(),
            attribute,
            links,
        )
    }
}

/// If the view holds the query whichever objects its marks are, `objects` becomes 0
/// and no lent word is altered. Otherwise the lent words begin with the record of a
/// legal state of that many objects, in which `object` is in the query and outside
/// the view, with an object for each mark that the query uses; words after that
/// record are unaltered. Refused as 11 if there are fewer lent words than
/// [`DECIDE_WORDS`](crate::layout::DECIDE_WORDS).
pub fn decide(
    schema: &[u16],
    query: &[u16],
    view: &[u16],
    lent: &mut [u16],
    objects: &mut u64,
    object: &mut u64,
) -> u16 {
    // SAFETY: as for `select`.
    unsafe {
        bikuvoa_decide(
            schema.as_ptr(),
            schema.len(),
            query.as_ptr(),
            query.len(),
            view.as_ptr(),
            view.len(),
            lent.as_mut_ptr(),
            lent.len(),
            objects,
            object,
        )
    }
}

/// `held` becomes 1 if the view holds the query and 0 if it does not, as
/// `decide` says, without lent words.
pub fn holds(schema: &[u16], query: &[u16], view: &[u16], held: &mut u64) -> u16 {
    // SAFETY: as for `select`.
    unsafe {
        bikuvoa_holds(
            schema.as_ptr(),
            schema.len(),
            query.as_ptr(),
            query.len(),
            view.as_ptr(),
            view.len(),
            held,
        )
    }
}

/// Puts the views of a catalogue in order. Bit j of word i of `rows`, counted from
/// the lowest, becomes 1 exactly if view i is held by view j. Views that are held
/// by each other are a group, and `groups` becomes how many there are. Word k of
/// `order` becomes the set of the views in group k, narrower groups before wider
/// ones: the next is always, of those with no narrower group still to come, the
/// one with the lowest view in it. The rest of the first
/// [`MAX_VIEWS`](crate::layout::MAX_VIEWS) words of each becomes 0; later words
/// are unaltered. Refused as 13 if the views are none, too many, or laid out in
/// another way, and as 11 if `rows` or `order` has fewer words than that.
pub fn catalogue(
    schema: &[u16],
    views: &[u16],
    rows: &mut [u16],
    order: &mut [u16],
    groups: &mut u64,
) -> u16 {
    // SAFETY: as for `select`.
    unsafe {
        bikuvoa_catalogue(
            schema.as_ptr(),
            schema.len(),
            views.as_ptr(),
            views.len(),
            rows.as_mut_ptr(),
            rows.len(),
            order.as_mut_ptr(),
            order.len(),
            groups,
        )
    }
}
