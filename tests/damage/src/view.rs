//! A site read as queues of slots, on any bytes at all.
//!
//! A queue is read as far as its class has places. A number there names a slot, or an entry of a
//! query, or nothing. A slot is used if its id is not 0, a query open if it has a class to read.

use crate::subject::Subject;
use shpendorak::raw::{
    CLASS_PLACES, CLASSES, KEPT, MOST_OPS, Op, QUERIES, Query, SLOTS, Site, Slot,
};
use std::ops::RangeInclusive;

/// Whether a slot is used.
pub fn is_used(slot: &Slot) -> bool {
    slot.id != 0
}

/// Whether a request is confirmed: number 0 means waiting.
pub fn is_confirmed(slot: &Slot) -> bool {
    slot.number != 0
}

/// The used slots.
pub fn used(subject: &Subject) -> impl Iterator<Item = &Slot> {
    subject.site.slots.iter().filter(|slot| is_used(slot))
}

/// The operations within a request's number, and those past it.
pub fn ops_and_past(slot: &Slot) -> (&[Op], &[Op]) {
    slot.ops.split_at(usize::from(slot.count).min(MOST_OPS))
}

/// The places of a class up to its queue's length, and those past it.
pub fn queue_and_past(site: &Site, class: usize) -> (&[u8], &[u8]) {
    let places = &site.queue[class * CLASS_PLACES..(class + 1) * CLASS_PLACES];
    places.split_at(usize::from(site.lens[class]).min(CLASS_PLACES))
}

/// The places of a queue, head first.
pub fn queue(site: &Site, class: usize) -> &[u8] {
    queue_and_past(site, class).0
}

/// The slot that a queue place names, if it names one.
pub fn named(site: &Site, place: u8) -> Option<&Slot> {
    site.slots.get(usize::from(place))
}

/// The index of the query whose entry a queue place names, if it names one.
pub fn query_at(place: u8) -> Option<usize> {
    usize::from(place).checked_sub(SLOTS).filter(|&index| index < QUERIES)
}

/// What names an entry of the query at an index.
pub fn entry_of(index: usize) -> u8 {
    (SLOTS + index) as u8
}

/// Whether a query has a class still to read.
pub fn has_to_read(query: &Query, class: usize) -> bool {
    query.classes & (1 << class) != 0
}

/// The slots in a queue, head first.
pub fn queued(site: &Site, class: usize) -> impl Iterator<Item = &Slot> {
    queue(site, class).iter().filter_map(|place| named(site, *place))
}

/// The head of a class, if its queue has one that is a request.
pub fn head(site: &Site, class: usize) -> Option<&Slot> {
    queue(site, class).first().and_then(|place| named(site, *place))
}

/// Whether a slot is the head of a class.
pub fn is_head(site: &Site, slot: usize) -> bool {
    (0..CLASSES).any(|class| queue(site, class).first().is_some_and(|&at| usize::from(at) == slot))
}

/// The numbers that were given last, at most 256.
pub fn recent(site: &Site) -> RangeInclusive<u64> {
    let last = u64::from(site.confirmations);
    last.saturating_sub(KEPT as u64) + 1..=last
}

/// Where the id of a number stands among the kept ones.
pub fn place_of(number: u64) -> usize {
    (number % KEPT as u64) as usize
}

/// The id that is kept under a number.
pub fn kept(site: &Site, number: u64) -> u32 {
    site.kept[place_of(number)]
}

/// Whether all values differ.
pub fn differ(values: impl Iterator<Item = u32>) -> bool {
    let mut sorted: Vec<u32> = values.collect();
    sorted.sort_unstable();
    sorted.is_sorted_by(|one, next| one < next)
}
