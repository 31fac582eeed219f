//! The sound rules about queries: their entries, where these stand, and the count at their beginning.

use crate::aim::{HALF, any_class, swap_places};
use crate::subject::Subject;
use crate::view::{entry_of, has_to_read, is_confirmed, is_used, named, query_at, queue};
use model::random::Random;
use shpendorak::raw::{CELLS, CLASS_PLACES, CLASSES, QUERIES, Query, Site};

/// How many entries of the query at an index stand in the queue of a class.
fn entries(site: &Site, class: usize, index: usize) -> usize {
    queue(site, class).iter().filter(|&&place| query_at(place) == Some(index)).count()
}

/// Whether in every queue the entries of every query, and whether it has them to read, pass a test.
fn each_entered(subject: &Subject, passes: fn(bool, usize) -> bool) -> bool {
    let site = &subject.site;
    (0..CLASSES).all(|class| {
        let mut queries = site.queries.iter().enumerate();
        queries.all(|(index, query)| passes(has_to_read(query, class), entries(site, class, index)))
    })
}

/// Every entry belongs to an open query, one that has the class still to read.
pub fn entries_belong(subject: &Subject) -> bool {
    each_entered(subject, |to_read, entries| to_read || entries == 0)
}

/// An entry is left without its query, or joins a queue without one.
pub fn entry_without_query(random: &mut Random, subject: &mut Subject) {
    if random.chance(HALF) {
        class_forgotten(random, subject);
    } else {
        entry_of_free_query(random, subject);
    }
}

/// A query forgets one of several classes that it has still to read.
fn class_forgotten(random: &mut Random, subject: &mut Subject) {
    let several = |query: &Query| query.classes.count_ones() > 1;
    if let Some(index) = any_query(random, &subject.site, several) {
        let query = &mut subject.site.queries[index];
        let class = any_class(random, |class| has_to_read(query, class));
        query.classes &= !(1 << class.expect("it has classes to read"));
    }
}

/// An open query has an entry in each class that it has still to read.
pub fn queries_have_entries(subject: &Subject) -> bool {
    each_entered(subject, |to_read, entries| !to_read || entries > 0)
}

/// A query has a class more to read, and no entry there; a free one becomes open with no entry.
pub fn class_without_entry(random: &mut Random, subject: &mut Subject) {
    let query = &mut subject.site.queries[random.below(QUERIES)];
    if let Some(class) = any_class(random, |class| !has_to_read(query, class)) {
        query.classes |= 1 << class;
    }
}

/// A query has one entry at most in each queue.
pub fn entries_stand_once(subject: &Subject) -> bool {
    each_entered(subject, |_, entries| entries <= 1)
}

/// An entry stands a second time beside itself, and counts twice in the sum of its class.
pub fn entry_twice(random: &mut Random, subject: &mut Subject) {
    let site = &mut subject.site;
    let room =
        |class| queue(site, class).len() < CLASS_PLACES && first_entry(site, class).is_some();
    if let Some(class) = any_class(random, room) {
        let at = first_entry(site, class).expect("an entry stands there");
        let len = queue(site, class).len();
        let places = &mut site.queue[class * CLASS_PLACES..][..=len];
        places.copy_within(at..len, at + 1);
        site.lens[class] += 1;
        site.sums[class] += 1;
    }
}

/// The place of the first entry in the queue of a class, from 0.
fn first_entry(site: &Site, class: usize) -> Option<usize> {
    queue(site, class).iter().position(|&place| query_at(place).is_some())
}

/// The index of a query that a test allows, if there is any.
fn any_query(random: &mut Random, site: &Site, allows: impl Fn(&Query) -> bool) -> Option<usize> {
    let allowed: Vec<usize> = (0..QUERIES).filter(|&index| allows(&site.queries[index])).collect();
    (!allowed.is_empty()).then(|| random.pick(&allowed))
}

/// Entries stand among the confirmed by the count at their beginning: in its order, behind every
/// number up to it and before every number above it, and before the waiting.
pub fn entries_are_in_order(subject: &Subject) -> bool {
    let site = &subject.site;
    (0..CLASSES).all(|class| {
        let mut queue = queue(site, class).iter().enumerate();
        queue.all(|(at, &place)| {
            query_at(place).is_none_or(|index| stands_right(site, class, at, index))
        })
    })
}

/// Whether the entry of the query at an index stands right at a place of a queue.
fn stands_right(site: &Site, class: usize, at: usize, index: usize) -> bool {
    let begun = site.queries[index].begun;
    let (before, behind) = queue(site, class).split_at(at);
    let before_it = |&place: &u8| match query_at(place) {
        Some(other) => site.queries[other].begun <= begun,
        None => named(site, place)
            .is_none_or(|slot| !is_used(slot) || is_confirmed(slot) && slot.number <= begun),
    };
    let behind_it = |&place: &u8| {
        let slot = if query_at(place).is_some() { None } else { named(site, place) };
        slot.is_none_or(|slot| !is_confirmed(slot) || slot.number > begun)
    };
    before.iter().all(before_it) && behind.iter().all(behind_it)
}

/// An entry and a neighbour with nothing done change places.
pub fn entry_out_of_order(random: &mut Random, subject: &mut Subject) {
    swap_places(random, &mut subject.site, |site, one, next| {
        let untouched = |place: u8| named(site, place).is_none_or(|slot| slot.done == 0);
        (query_at(one).is_some() || query_at(next).is_some()) && untouched(one) && untouched(next)
    });
}

/// No open query began above the present count of confirmations.
pub fn queries_began_before(subject: &Subject) -> bool {
    let Site { queries, confirmations, .. } = subject.site;
    queries.iter().all(|query| query.classes == 0 || query.begun <= confirmations)
}

/// A query whose entries are the last before the waiting began above the count of confirmations.
pub fn begun_above_count(random: &mut Random, subject: &mut Subject) {
    let site = &mut subject.site;
    if let Some(index) = any_query(random, site, |query| query.classes != 0) {
        let above = site.confirmations.checked_add(1 + u32::from(random.byte()));
        site.queries[index].begun = above.unwrap_or(u32::MAX);
    }
}

/// A free query is all zero.
pub fn free_queries_are_zero(subject: &Subject) -> bool {
    subject.site.queries.iter().all(|query| query.classes != 0 || query.begun == 0)
}

/// A free query has a count at its beginning.
pub fn free_query_begun(random: &mut Random, subject: &mut Subject) {
    let site = &mut subject.site;
    if let Some(index) = any_query(random, site, |query| query.classes == 0) {
        let (some, any) = (1 + u32::from(random.byte()), random.number() | 1);
        site.queries[index].begun = if random.chance(HALF) { some } else { any };
    }
}

/// Whether an entry of a query is the head of a class.
fn entry_is_head(site: &Site, class: usize) -> bool {
    queue(site, class).first().is_some_and(|&place| query_at(place).is_some())
}

/// Where an entry is head the working cells equal the committed ones.
pub fn read_cells_are_equal(subject: &Subject) -> bool {
    (0..CLASSES).filter(|&class| entry_is_head(&subject.site, class)).all(|class| {
        let cells = class * CELLS..(class + 1) * CELLS;
        subject.working[cells.clone()] == subject.committed[cells]
    })
}

/// A working cell of a class whose head is an entry is wrong.
pub fn read_cells_wrong(random: &mut Random, subject: &mut Subject) {
    if let Some(class) = any_class(random, |class| entry_is_head(&subject.site, class)) {
        let at = class * CELLS + random.below(CELLS);
        subject.working[at] ^= 1 << random.below(u32::BITS as usize);
    }
}

/// The entry of a free query joins a queue, so that it belongs to none.
fn entry_of_free_query(random: &mut Random, subject: &mut Subject) {
    let site = &mut subject.site;
    let free = any_query(random, site, |query| query.classes == 0 && query.begun == 0);
    let empty = any_class(random, |class| queue(site, class).is_empty());
    if let (Some(index), Some(class)) = (free, empty) {
        site.queue[class * CLASS_PLACES] = entry_of(index);
        site.lens[class] = 1;
        site.sums[class] = 1;
    }
}
