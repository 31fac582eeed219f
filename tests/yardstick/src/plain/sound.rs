//! The check that every call begins with: each rule by the same walk as in the archive, on references.

use crate::plain::FREE;
use crate::plain::cells::carry;
use crate::raw::*;
use model::record::{CELLS, MOVE, PUT};

/// How many marks tell ids apart.
const MARKS: usize = 4096;

/// Whether the site is sound with its cells.
pub fn sound(site: &Site, committed: &[u32], working: &[u32]) -> bool {
    let most_backs = u64::from(site.confirmations) + u64::from(site.begun);
    site.slots.iter().all(|slot| slot_ok(slot, most_backs))
        && site.lens.iter().all(|&len| usize::from(len) <= CLASS_PLACES)
        && site.queries.iter().all(|query| query.classes != 0 || query.begun == 0)
        && tails_zero(site)
        && map_agrees(site)
        && each_once(site)
        && pairs_differ(&site.slots)
        && in_order(site)
        && sums_right(site)
        && counts_agree(site)
        && cells_ok(site, committed, working)
        && kept_ok(site)
}

/// The queue of a class, head first.
pub fn queue_of(site: &Site, class: usize) -> &[u8] {
    &site.queue[CLASS_PLACES * class..][..usize::from(site.lens[class])]
}

/// The index of the query whose entry a queue place names, if it names one.
pub fn query_at(place: u8) -> Option<usize> {
    usize::from(place).checked_sub(SLOTS)
}

/// Whether a slot is free and all zero, or holds a valid record that was put back at most so often.
fn slot_ok(slot: &Slot, most_backs: u64) -> bool {
    if slot.id == 0 { *slot == FREE } else { holds(slot) && slot.backs <= most_backs }
}

/// Whether a slot holds a valid record.
pub fn holds(slot: &Slot) -> bool {
    let count = usize::from(slot.count);
    if slot.id == 0 || usize::from(slot.class) >= CLASSES || !(1..=MOST_OPS).contains(&count) {
        return false;
    }
    let (ops, rest) = slot.ops.split_at(count);
    ops.iter().all(op_ok) && rest.iter().all(|op| *op == Op::default())
}

/// Whether an operation keeps the rules of a record.
fn op_ok(op: &Op) -> bool {
    let (cell, second) = (usize::from(op.cell), usize::from(op.second));
    match op.code {
        MOVE => cell < CELLS && second < CELLS && cell != second,
        PUT..MOVE => cell < CELLS && second == 0,
        _ => false,
    }
}

/// Whether the queue places past the end are zero.
fn tails_zero(site: &Site) -> bool {
    let mut classes = site.queue.chunks_exact(CLASS_PLACES).zip(&site.lens);
    classes.all(|(places, &len)| places[usize::from(len)..].iter().all(|&place| place == 0))
}

/// Whether the map of used slots agrees.
fn map_agrees(site: &Site) -> bool {
    let agrees = |(word, slots): (u64, &[Slot])| {
        slots.iter().enumerate().all(|(bit, slot)| (word >> bit & 1 == 1) == (slot.id != 0))
    };
    [site.low, site.high].into_iter().zip(site.slots.chunks_exact(u64::BITS as usize)).all(agrees)
}

/// Whether every used slot stands exactly once, in the queue of its class, no free slot stands in one, and each query has one entry in the queue of
/// each class that it has still to read and in no other.
fn each_once(site: &Site) -> bool {
    let mut seen = 0u128;
    let mut entered = [0u16; QUERIES];
    for class in 0..CLASSES {
        for &place in queue_of(site, class) {
            if let Some(index) = query_at(place) {
                let bit = 1 << class;
                if index >= QUERIES || entered[index] & bit != 0 {
                    return false;
                }
                entered[index] |= bit;
                continue;
            }
            let Some(slot) = site.slots.get(usize::from(place)) else {
                return false;
            };
            let bit = 1 << place;
            if slot.id == 0 || usize::from(slot.class) != class || seen & bit != 0 {
                return false;
            }
            seen |= bit;
        }
    }
    seen == u128::from(site.high) << u64::BITS | u128::from(site.low)
        && site.queries.iter().zip(entered).all(|(query, entered)| query.classes == entered)
}

/// Whether ids differ and numbers differ, over the pairs of slots.
fn pairs_differ(slots: &[Slot; SLOTS]) -> bool {
    slots.iter().enumerate().all(|(at, a)| {
        slots[at + 1..]
            .iter()
            .all(|b| (a.id == 0 || a.id != b.id) && (a.number == 0 || a.number != b.number))
    })
}

/// Whether in each queue the confirmed stand before the waiting, with rising numbers, the entries of queries among them by the count at their
/// beginning, and only a head has anything done.
fn in_order(site: &Site) -> bool {
    (0..CLASSES).all(|class| {
        let mut line = Some(0);
        queue_of(site, class).iter().enumerate().all(|(at, &place)| {
            let stands = match query_at(place) {
                Some(index) => line
                    .filter(|&line| line <= site.queries[index].begun)
                    .map(|_| Some(site.queries[index].begun)),
                None => behind(line, &site.slots[usize::from(place)], at == 0),
            };
            line = stands.flatten();
            stands.is_some() && line.is_none_or(|line| line <= site.confirmations)
        })
    })
}

/// What stands behind a slot must be above its number, or wait too; none where the slot may not stand behind such a line.
fn behind(line: Option<u32>, slot: &Slot, is_head: bool) -> Option<Option<u32>> {
    if !is_head && (slot.done != 0 || slot.mark != 0) {
        return None;
    }
    if slot.number == 0 {
        return Some(None);
    }
    line.filter(|&line| line < slot.number).map(|_| Some(slot.number))
}

/// Whether with each class stand the operations and query entries still to do by its confirmed part.
fn sums_right(site: &Site) -> bool {
    let to_do = |&place: &u8| match site.slots.get(usize::from(place)) {
        None => 1,
        Some(slot) if slot.number == 0 => 0,
        Some(slot) => u16::from(slot.count.saturating_sub(slot.done)),
    };
    (0..CLASSES)
        .all(|class| queue_of(site, class).iter().map(to_do).sum::<u16>() == site.sums[class])
}

/// Whether the confirmations are the commits and the confirmed requests queued.
fn counts_agree(site: &Site) -> bool {
    let confirmed = site.slots.iter().filter(|slot| slot.number != 0).count();
    site.confirmations.checked_sub(site.commits).is_some_and(|open| open as usize == confirmed)
}

/// Whether the kept ids follow their rules.
fn kept_ok(site: &Site) -> bool {
    let count = site.confirmations as usize;
    let in_use = |place: usize| count >= KEPT || (1..=count).contains(&place);
    let filled = site.kept.iter().enumerate().all(|(place, &id)| in_use(place) == (id != 0));
    let mut marks = [0; MARKS];
    filled
        && mark(&site.kept, &mut marks)
        && site.slots.iter().all(|slot| matches(site, &marks, slot))
}

/// Whether kept ids differ; each is marked.
fn mark(kept: &[u32; KEPT], marks: &mut [u8; MARKS]) -> bool {
    for (place, &id) in kept.iter().enumerate() {
        if stands(&kept[..place], marks, id) {
            return false;
        }
        marks[id as usize % MARKS] = 1;
    }
    true
}

/// Whether an id, but 0, is among some that are marked.
fn stands(kept: &[u32], marks: &[u8; MARKS], id: u32) -> bool {
    id != 0 && marks[id as usize % MARKS] != 0 && kept.contains(&id)
}

/// Whether a slot has a kept id exactly if its number is kept, and then the one under it.
fn matches(site: &Site, marks: &[u8; MARKS], slot: &Slot) -> bool {
    let ago = site.confirmations.checked_sub(slot.number);
    if slot.number != 0 && ago.is_some_and(|ago| (ago as usize) < KEPT) {
        return site.kept[slot.number as usize % KEPT] == slot.id;
    }
    !stands(&site.kept, marks, slot.id)
}

/// Whether the working cells are the committed ones with the head's done operations carried out on them.
fn cells_ok(site: &Site, committed: &[u32], working: &[u32]) -> bool {
    let mut runs = committed.chunks_exact(CELLS).zip(working.chunks_exact(CELLS));
    let mut classes = 0..CLASSES;
    runs.all(|(committed, working)| {
        let head = classes.next().and_then(|class| queue_of(site, class).first());
        match head {
            Some(&place) if query_at(place).is_none() => {
                head_ok(&site.slots[usize::from(place)], committed, working)
            }
            _ => working == committed,
        }
    })
}

/// Whether a slot may be the head of its class, with the class's cells.
fn head_ok(head: &Slot, committed: &[u32], working: &[u32]) -> bool {
    if head.done > head.count || (head.number != 0 && head.done == head.count) {
        return false;
    }
    let mut cells = [0; CELLS];
    cells.copy_from_slice(committed);
    let done = &head.ops[..usize::from(head.done)];
    match done.iter().position(|op| !carry(op, &mut cells)) {
        None => head.mark == 0 && working == cells,
        Some(place) => usize::from(head.mark) == place + 1 && working == committed,
    }
}
