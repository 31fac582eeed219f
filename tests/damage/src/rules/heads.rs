//! The sound rules about what is done: by heads alone, and as the cells and the mark say.
//!
//! On any bytes at all: no more is done than a record has operations, and an operation that means
//! nothing changes nothing.

use crate::aim::{any_class, any_slot, byte_from};
use crate::subject::Subject;
use crate::view::{head, is_confirmed, is_head, is_used, ops_and_past, place_of, queue, used};
use model::random::Random;
use shpendorak::raw::{ADD, CELLS, CLASSES, MOST_OPS, MOVE, NEED, Op, PUT, Site, Slot};

/// None has more done than it has operations.
pub fn done_is_within_ops(subject: &Subject) -> bool {
    used(subject).all(|slot| slot.done <= slot.count)
}

/// Whether a slot is a waiting head that is executed.
fn is_executed_head(site: &Site, at: usize) -> bool {
    let slot = &site.slots[at];
    is_used(slot) && !is_confirmed(slot) && slot.done == slot.count && is_head(site, at)
}

/// An executed head has done more than it has operations.
pub fn done_past_ops(random: &mut Random, subject: &mut Subject) {
    let site = &mut subject.site;
    if let Some(at) = any_slot(random, site, |at, _| is_executed_head(site, at)) {
        site.slots[at].done = byte_from(random, usize::from(site.slots[at].count) + 1);
    }
}

/// Whether only heads among the used slots pass a test.
fn only_heads(subject: &Subject, passes: fn(&Slot) -> bool) -> bool {
    let site = &subject.site;
    let mut passing =
        site.slots.iter().enumerate().filter(|(_, slot)| is_used(slot) && passes(slot));
    passing.all(|(at, _)| is_head(site, at))
}

/// Only a head has anything done.
pub fn only_heads_have_done(subject: &Subject) -> bool {
    only_heads(subject, |slot| slot.done != 0)
}

/// A request that is no head has something done.
pub fn done_behind_head(random: &mut Random, subject: &mut Subject) {
    let site = &mut subject.site;
    if let Some(at) = any_slot(random, site, |at, slot| slot.count > 0 && !is_head(site, at)) {
        let slot = &mut site.slots[at];
        slot.done = 1 + random.below(usize::from(slot.count)) as u8;
    }
}

/// Only a head is declined.
pub fn only_heads_are_declined(subject: &Subject) -> bool {
    only_heads(subject, |slot| slot.mark != 0)
}

/// A request that is no head is marked declined.
pub fn declined_behind_head(random: &mut Random, subject: &mut Subject) {
    let site = &mut subject.site;
    if let Some(at) = any_slot(random, site, |at, slot| is_used(slot) && !is_head(site, at)) {
        site.slots[at].mark = 1 + random.below(MOST_OPS) as u8;
    }
}

/// The heads of all classes that have one.
fn heads(subject: &Subject) -> impl Iterator<Item = &Slot> {
    (0..CLASSES).filter_map(|class| head(&subject.site, class))
}

/// A confirmed head is not executed.
pub fn confirmed_heads_are_not_executed(subject: &Subject) -> bool {
    heads(subject).all(|head| !is_confirmed(head) || head.done < head.count)
}

/// An executed head is confirmed under the next number and does not commit.
pub fn executed_and_confirmed(random: &mut Random, subject: &mut Subject) {
    let site = &mut subject.site;
    if let Some(at) = any_slot(random, site, |at, _| is_executed_head(site, at)) {
        site.confirmations = site.confirmations.wrapping_add(1);
        site.slots[at].number = site.confirmations;
        site.kept[place_of(site.confirmations.into())] = site.slots[at].id;
    }
}

/// The 64 cells of a class in a run.
fn cells_of(run: &[u32], class: usize) -> &[u32] {
    &run[class * CELLS..(class + 1) * CELLS]
}

/// Carries out one operation; false if it declines.
fn carry_out(op: &Op, cells: &mut [u32]) -> bool {
    let (cell, second) = (usize::from(op.cell), usize::from(op.second));
    let (Some(&from), Some(&to)) = (cells.get(cell), cells.get(second)) else {
        return true;
    };
    match op.code {
        PUT => cells[cell] = op.amount,
        ADD => cells[cell] = from.wrapping_add(op.amount),
        NEED => return from >= op.amount,
        MOVE if from < op.amount || to > u32::MAX - op.amount => return false,
        MOVE => {
            cells[cell] -= op.amount;
            cells[second] += op.amount;
        }
        _ => {}
    }
    true
}

/// The committed cells of a class with the head's done operations carried out on them, or the place
/// of the first of those that declined.
fn worked(subject: &Subject, class: usize, head: &Slot) -> Result<Vec<u32>, u8> {
    let mut cells = cells_of(&subject.committed, class).to_vec();
    let done = ops_and_past(head).0.iter().take(usize::from(head.done));
    match (1..).zip(done).find(|(_, op)| !carry_out(op, &mut cells)) {
        Some((place, _)) => Err(place),
        None => Ok(cells),
    }
}

/// A head's mark is the place of the first of its done operations that declined, or 0.
pub fn marks_are_right(subject: &Subject) -> bool {
    (0..CLASSES).all(|class| {
        head(&subject.site, class)
            .is_none_or(|head| head.mark == worked(subject, class, head).err().unwrap_or(0))
    })
}

/// A head's mark is wrong.
pub fn mark_wrong(random: &mut Random, subject: &mut Subject) {
    let site = &mut subject.site;
    if let Some(at) = any_slot(random, site, |at, _| is_head(site, at)) {
        let Slot { mark, done, .. } = site.slots[at];
        let wrong = [mark.wrapping_add(1), mark.wrapping_sub(1), 0, done, u8::MAX];
        site.slots[at].mark = random.pick(&wrong);
    }
}

/// Working cells are the committed ones with the head's done operations carried out on them; a
/// request that declines has no effect.
pub fn working_cells_follow(subject: &Subject) -> bool {
    (0..CLASSES).all(|class| {
        let committed = cells_of(&subject.committed, class);
        head(&subject.site, class).is_none_or(|head| {
            let worked = worked(subject, class, head);
            cells_of(&subject.working, class) == worked.as_deref().unwrap_or(committed)
        })
    })
}

/// A working cell of a class that a test allows is changed.
fn change_working(random: &mut Random, subject: &mut Subject, in_class: fn(&Site, usize) -> bool) {
    let site = &subject.site;
    if let Some(class) = any_class(random, |class| in_class(site, class)) {
        let at = class * CELLS + random.below(CELLS);
        subject.working[at] ^= 1 << random.below(u32::BITS as usize);
    }
}

/// A working cell of a class with a head is wrong.
pub fn working_wrong(random: &mut Random, subject: &mut Subject) {
    change_working(random, subject, |site, class| head(site, class).is_some());
}

/// Working cells equal the committed ones where the queue is empty.
pub fn idle_cells_are_equal(subject: &Subject) -> bool {
    (0..CLASSES).all(|class| {
        let equal = cells_of(&subject.working, class) == cells_of(&subject.committed, class);
        equal || !queue(&subject.site, class).is_empty()
    })
}

/// A working cell of a class with an empty queue is wrong.
pub fn idle_wrong(random: &mut Random, subject: &mut Subject) {
    change_working(random, subject, |site, class| queue(site, class).is_empty());
}
