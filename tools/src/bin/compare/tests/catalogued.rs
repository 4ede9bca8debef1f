//! Wrong catalogues, each the proved code's with one thing spoilt.

use super::spoilt::{Answer, Spoilt};
use super::{catalogue_difference, damage_difference};
use bikuvoa::layout::{self, MAX_VIEWS};
use reference::records::{self, Place};
use tools::call::Entry;

type Spoil = fn(&mut Answer);

/// The comparison of catalogues must find it, as such a fault.
fn assert_found(fault: &str, spoil: Spoil) {
    let found = catalogue_difference(&Spoilt(|answer| {
        if answer.is_of(Entry::Catalogue) {
            spoil(answer);
        }
    }));
    assert!(found.fault.starts_with(fault), "{}", found.fault);
}

/// So must the comparison of damaged records find a wrong refusal.
fn assert_refusal_found(fault: &str, spoil: Spoil) {
    let found = damage_difference(&Spoilt(|answer| {
        if answer.entry == Entry::Catalogue {
            spoil(answer);
        }
    }));
    assert_eq!(found.fault, fault);
}

impl Answer<'_> {
    /// How many views the catalogue says it has.
    fn views(&self) -> usize {
        self.call.catalogue.first().map_or(0, |&count| count.into())
    }

    /// How many words are lent for the rows or for the order, where there are fewer.
    fn fewest_lent(&self) -> usize {
        self.out.lent.len().min(self.out.order.len())
    }

    /// What each view is refused as, or 0; nothing of another layout.
    fn view_refusals(&self) -> Vec<u16> {
        let views = layout::views(&self.call.catalogue).unwrap_or_default();
        let Ok(schema) = records::schema(&self.call.schema) else {
            return Vec::new();
        };
        let refusal = |view: &&[u16]| records::concept(view, &schema, Place::View).err();
        let refusals = views.iter().map(refusal);
        refusals.map(|refusal| refusal.unwrap_or(0)).collect()
    }

    fn is_held(&self, first: usize, second: usize) -> bool {
        self.out.lent[first] >> second & 1 == 1
    }

    fn is_narrower(&self, first: usize, second: usize) -> bool {
        self.is_held(first, second) && !self.is_held(second, first)
    }

    /// Puts the groups in the order in which their views are chosen, each time from
    /// those that are left.
    fn reorder(&mut self, choose: impl Fn(&Self, &[usize]) -> usize) {
        let mut left: Vec<usize> = (0..self.views()).collect();
        let groups = self.out.outs[0] as usize;
        let order = (0..groups).map(|_| {
            let chosen = choose(self, &left);
            let is_same = |view: usize| self.is_held(chosen, view) && self.is_held(view, chosen);
            left.retain(|&view| !is_same(view));
            (0..self.views())
                .filter(|&view| is_same(view))
                .fold(0, |set, view| set | 1 << view)
        });
        let order: Vec<u16> = order.collect();
        self.out.order[..groups].copy_from_slice(&order);
    }

    /// Those of the views left that no other one left is narrower than.
    fn ready(&self, left: &[usize]) -> Vec<usize> {
        let waits = |view: usize| left.iter().any(|&other| self.is_narrower(other, view));
        left.iter().copied().filter(|&view| !waits(view)).collect()
    }
}

/// The tests below stand on this: with the right choice nothing is wrong.
#[test]
fn the_right_choice_is_no_difference() {
    let right = Spoilt(|answer: &mut Answer| {
        if answer.is_of(Entry::Catalogue) {
            answer.reorder(|answer, left| answer.ready(left)[0]);
        }
    });
    let run = crate::catalogues::run(&right, &mut tools::prng::Prng::new(super::SEED), 300);
    assert!(run.is_ok());
}

#[test]
fn rows_and_columns_exchanged() {
    assert_found("lent word ", |answer| {
        let rows: Vec<u16> = (0..MAX_VIEWS)
            .map(|first| {
                let held = (0..MAX_VIEWS).filter(|&second| answer.is_held(second, first));
                held.fold(0, |row, second| row | 1 << second)
            })
            .collect();
        answer.out.lent[..MAX_VIEWS].copy_from_slice(&rows);
    });
}

#[test]
fn no_view_held_by_itself() {
    assert_found("lent word ", |answer| {
        for view in 0..answer.views() {
            answer.out.lent[view] &= !(1 << view);
        }
    });
}

#[test]
fn only_views_of_one_group_held() {
    assert_found("lent word ", |answer| {
        let rows = (0..answer.views()).map(|view| {
            let mut groups = answer.out.order.iter();
            let group = groups.find(|&&group| group >> view & 1 == 1);
            *group.expect("a group")
        });
        let rows: Vec<u16> = rows.collect();
        answer.out.lent[..rows.len()].copy_from_slice(&rows);
    });
}

#[test]
fn the_last_pair_missing() {
    assert_found("lent word 15 ", |answer| answer.out.lent[15] &= 0x7FFF);
}

#[test]
fn bits_and_rows_of_views_that_are_not_there() {
    assert_found("lent word 0 ", |answer| {
        if answer.views() < MAX_VIEWS {
            answer.out.lent[0] |= 1 << answer.views();
        }
    });
    assert_found("lent word ", |answer| {
        let views = answer.views();
        for view in views..MAX_VIEWS {
            answer.out.lent[view] = 1 << view;
        }
    });
}

#[test]
fn words_left_as_they_were() {
    assert_found("lent word ", |answer| {
        let views = answer.views();
        answer.out.lent[views..].copy_from_slice(&answer.before[views..]);
    });
    assert_found("order word ", |answer| {
        let groups = answer.out.outs[0] as usize;
        if groups < MAX_VIEWS {
            answer.out.order[groups] = answer.out.order[groups - 1];
        }
    });
}

#[test]
fn words_after_the_first_sixteen() {
    assert_found("lent word ", |answer| answer.out.lent[MAX_VIEWS..].fill(0));
    assert_found("order word ", |answer| {
        answer.out.order[MAX_VIEWS..].fill(0)
    });
}

/// The last of all views that may come next is chosen.
#[test]
fn the_highest_view_first() {
    assert_found("order word ", |answer| {
        answer.reorder(|answer, left| *answer.ready(left).last().expect("a view"));
    });
}

#[test]
fn groups_by_their_highest_view() {
    assert_found("order word ", |answer| {
        answer.reorder(|answer, left| {
            let highest = |&one: &usize| {
                let same = left
                    .iter()
                    .filter(|&&view| answer.is_held(one, view) && answer.is_held(view, one));
                same.max().copied()
            };
            let ready = answer.ready(left);
            ready.into_iter().min_by_key(highest).expect("a view")
        });
    });
}

#[test]
fn large_groups_first() {
    assert_found("order word ", |answer| {
        answer.reorder(|answer, left| {
            let size = |&one: &usize| {
                let others = left
                    .iter()
                    .filter(|&&view| answer.is_held(one, view) && answer.is_held(view, one));
                std::cmp::Reverse(others.count())
            };
            let ready = answer.ready(left);
            ready.into_iter().min_by_key(size).expect("a view")
        });
    });
}

#[test]
fn groups_by_number_alone() {
    assert_found("order word ", |answer| answer.reorder(|_, left| left[0]));
}

#[test]
fn wider_groups_first() {
    assert_found("order word ", |answer| {
        answer.reorder(|answer, left| {
            let waits = |view: usize| left.iter().any(|&other| answer.is_narrower(view, other));
            let mut ready = left.iter().copied().filter(|&view| !waits(view));
            ready.next().expect("a view")
        });
    });
}

/// Of the groups that may come, those with the fewest narrower ones before them.
#[test]
fn groups_by_their_depth() {
    fn depth(answer: &Answer, view: usize) -> usize {
        let narrower = (0..answer.views()).filter(|&other| answer.is_narrower(other, view));
        let depths = narrower.map(|other| 1 + depth(answer, other));
        depths.max().unwrap_or(0)
    }
    assert_found("order word ", |answer| {
        // A chain of all views would take too long by this definition.
        if answer.views() <= 8 {
            answer.reorder(|answer, left| {
                let views = left.iter().copied();
                views
                    .min_by_key(|&view| depth(answer, view))
                    .expect("a view")
            });
        }
    });
}

#[test]
fn a_group_without_its_last_view() {
    assert_found("order word ", |answer| {
        for group in answer.out.order[..MAX_VIEWS].iter_mut() {
            if group.count_ones() > 1 {
                *group &= !(1 << group.ilog2());
            }
        }
    });
}

#[test]
fn another_number_of_groups() {
    assert_found("out values ", |answer| answer.out.outs[0] += 1);
    assert_found("out values ", |answer| {
        answer.out.outs[0] = answer.views() as u64
    });
    assert_found("out values ", |answer| {
        if answer.out.outs[0] == MAX_VIEWS as u64 {
            answer.out.outs[0] = 0;
        }
    });
}

#[test]
fn a_second_out_value_or_a_set() {
    assert_found("out values ", |answer| answer.out.outs[1] = 0);
    assert_found("sets ", |answer| answer.out.sets[0] = 0);
}

#[test]
fn one_view_more() {
    assert_refusal_found("returned 0 and not 13", |answer| {
        if answer.number == 13 && answer.view_refusals() == [0; MAX_VIEWS + 1] {
            answer.number = 0;
        }
    });
}

#[test]
fn no_view_at_all() {
    assert_refusal_found("returned 0 and not 13", |answer| {
        if answer.number == 13 && answer.views() == 0 {
            answer.number = 0;
        }
    });
}

/// The words that there would be by the count and the lengths.
fn said(catalogue: &[u16]) -> usize {
    let count = catalogue.first().map_or(0, |&count| count.into());
    let lengths = catalogue.iter().skip(1).take(count);
    1 + count + lengths.map(|&length| usize::from(length)).sum::<usize>()
}

#[test]
fn a_sum_of_sixteen_bits() {
    let passes: [fn(usize, usize) -> bool; 4] = [
        |said, there| said as u16 == there as u16,
        // Lengths that are too many, words that are too many.
        |said, there| said as u16 as usize == there,
        |said, there| said == there as u16 as usize,
        |said, there| said.abs_diff(there) == 1 << 16,
    ];
    for passes in passes {
        let found = damage_difference(&Spoilt(|answer| {
            let is_refused = answer.entry == Entry::Catalogue && answer.number == 13;
            let catalogue = &answer.call.catalogue;
            if is_refused && catalogue.len() > 2 && passes(said(catalogue), catalogue.len()) {
                answer.number = 3;
            }
        }));
        assert_eq!(found.fault, "returned 3 and not 13");
    }
    // A layout that is right, of more words than a word can say.
    assert_refusal_found("returned 13 and not 3", |answer| {
        if answer.number == 3 && answer.call.catalogue.len() > 1 << 16 {
            answer.number = 13;
        }
    });
}

#[test]
fn words_after_the_last_view() {
    assert_refusal_found("returned 0 and not 13", |answer| {
        let catalogue = &answer.call.catalogue;
        let is_counted = (1..=MAX_VIEWS).contains(&answer.views());
        if answer.number == 13 && is_counted && said(catalogue) < catalogue.len() {
            answer.number = 0;
        }
    });
}

#[test]
fn a_length_of_0_taken_for_another_layout() {
    assert_refusal_found("returned 13 and not 3", |answer| {
        let views = layout::views(&answer.call.catalogue).unwrap_or_default();
        if answer.number == 3 && views.contains(&&[][..]) {
            answer.number = 13;
        }
    });
}

#[test]
fn the_first_view_alone_checked() {
    assert_refusal_found("returned 0 and not 4", |answer| {
        let refusals = answer.view_refusals();
        if answer.number == 4 && refusals.first() == Some(&0) {
            answer.number = 0;
        }
    });
}

#[test]
fn another_view_at_fault_told() {
    type Telling = fn(&[u16]) -> Option<u16>;
    let tellings: [Telling; 2] = [
        |refusals| refusals.iter().copied().rfind(|&number| number > 0),
        |refusals| refusals.iter().copied().filter(|&number| number > 0).min(),
    ];
    for telling in tellings {
        let found = damage_difference(&Spoilt(|answer| {
            if answer.entry == Entry::Catalogue && (3..=6).contains(&answer.number) {
                answer.number = telling(&answer.view_refusals()).expect("a refusal");
            }
        }));
        assert_eq!(found.call.entry, Entry::Catalogue);
    }
}

#[test]
fn views_with_the_steps_of_a_query() {
    assert_refusal_found("returned 0 and not 6", |answer| {
        let schema = records::schema(&answer.call.schema);
        let views = layout::views(&answer.call.catalogue);
        if let (6, Ok(schema), Some(views)) = (answer.number, schema, views) {
            let accepts = |view: &&[u16]| records::concept(view, &schema, Place::Concept).is_ok();
            if views.iter().all(accepts) {
                answer.number = 0;
            }
        }
    });
}

#[test]
fn the_schema_after_the_layout() {
    let found = damage_difference(&Spoilt(|answer| {
        let is_of_schema = answer.entry == Entry::Catalogue && matches!(answer.number, 1 | 2 | 14);
        if is_of_schema && layout::views(&answer.call.catalogue).is_none() {
            answer.number = 13;
        }
    }));
    assert!(found.fault.starts_with("returned 13 "), "{}", found.fault);
}

#[test]
fn the_views_before_the_layout() {
    let found = damage_difference(&Spoilt(|answer| {
        if answer.entry == Entry::Catalogue && answer.number == 13 && answer.views() > MAX_VIEWS {
            let mut refusals = answer.view_refusals().into_iter();
            answer.number = refusals.find(|&number| number > 0).unwrap_or(13);
        }
    }));
    assert!(found.fault.ends_with(" and not 13"), "{}", found.fault);
}

#[test]
fn the_lent_words_before_the_views() {
    let found = damage_difference(&Spoilt(|answer| {
        let is_of_view = answer.entry == Entry::Catalogue && (3..=6).contains(&answer.number);
        if is_of_view && answer.fewest_lent() < MAX_VIEWS {
            answer.number = 11;
        }
    }));
    assert!(found.fault.starts_with("returned 11 "), "{}", found.fault);
}

#[test]
fn too_few_lent_words_taken() {
    assert_refusal_found("returned 0 and not 11", |answer| {
        if answer.number == 11 && answer.out.lent.len() == MAX_VIEWS {
            answer.number = 0;
        }
    });
    assert_refusal_found("returned 0 and not 11", |answer| {
        if answer.number == 11 && answer.out.order.len() == MAX_VIEWS {
            answer.number = 0;
        }
    });
    assert_refusal_found("returned 0 and not 11", |answer| {
        if answer.number == 11 && answer.fewest_lent() == MAX_VIEWS - 1 {
            answer.number = 0;
        }
    });
    assert_refusal_found("returned 0 and not 11", |answer| {
        if answer.number == 11 && answer.fewest_lent() >= answer.views() {
            answer.number = 0;
        }
    });
}

/// Each refusal of a catalogue, and each thing that it may not write.
#[test]
fn what_a_refused_catalogue_writes() {
    let spoils: [Spoil; 3] = [
        |answer| answer.out.lent.iter_mut().for_each(|word| *word = 0),
        |answer| answer.out.order.iter_mut().for_each(|word| *word = 0),
        |answer| answer.out.outs[0] = 0,
    ];
    for number in [1, 2, 3, 4, 5, 6, 11, 13] {
        for spoil in spoils {
            let found = damage_difference(&Spoilt(|answer| {
                if answer.entry == Entry::Catalogue && answer.number == number {
                    spoil(answer);
                }
            }));
            let seen = (found.call.entry, found.seen.number);
            assert_eq!(seen, (Entry::Catalogue, number));
        }
    }
}
