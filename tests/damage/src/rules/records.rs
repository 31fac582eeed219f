//! The sound rules about a slot alone: free and all zero, or a valid record.

use crate::aim::{HALF, any_slot, byte_from};
use crate::subject::Subject;
use crate::view::{is_used, ops_and_past, used};
use model::random::Random;
use shpendorak::raw::{ADD, CELLS, CLASSES, MOST_OPS, MOVE, NEED, Op, PUT, Slot};

/// Codes that name no operation.
const ODD_CODES: [u8; 4] = [0, 5, 6, 255];

/// Each slot that is free is all zero.
pub fn free_slots_are_zero(subject: &Subject) -> bool {
    subject.site.slots.iter().all(|slot| is_used(slot) || *slot == Slot::default())
}

/// A free slot gets an amount, or was put back.
pub fn free_slot_not_zero(random: &mut Random, subject: &mut Subject) {
    if let Some(at) = any_slot(random, &subject.site, |_, slot| !is_used(slot)) {
        let slot = &mut subject.site.slots[at];
        if random.chance(HALF) {
            slot.ops[random.below(MOST_OPS)].amount = random.number() | 1;
        } else {
            slot.backs = 1 << random.below(u64::BITS as usize);
        }
    }
}

/// All operations within the number of a used slot.
fn used_ops(subject: &Subject) -> impl Iterator<Item = &Op> {
    used(subject).flat_map(|slot| ops_and_past(slot).0)
}

/// Whether a slot has a valid number of operations and its last is still to do.
fn has_last_to_do(slot: &Slot) -> bool {
    is_used(slot) && slot.done < slot.count && usize::from(slot.count) <= MOST_OPS
}

/// Changes the last operation of a request that has not done it.
fn change_last_op(random: &mut Random, subject: &mut Subject, change: fn(&mut Random, &mut Op)) {
    let site = &mut subject.site;
    if let Some(at) = any_slot(random, site, |_, slot| has_last_to_do(slot)) {
        let slot = &mut site.slots[at];
        change(random, &mut slot.ops[usize::from(slot.count) - 1]);
    }
}

/// Each used slot has a class from 0 to 15 and 1 to 7 operations.
pub fn class_and_count_are_in_range(subject: &Subject) -> bool {
    used(subject).all(|slot| {
        usize::from(slot.class) < CLASSES && (1..=MOST_OPS).contains(&usize::from(slot.count))
    })
}

/// A request of seven operations says that it has more.
pub fn count_too_large(random: &mut Random, subject: &mut Subject) {
    let seven = |_, slot: &Slot| usize::from(slot.count) == MOST_OPS;
    if let Some(at) = any_slot(random, &subject.site, seven) {
        subject.site.slots[at].count = byte_from(random, MOST_OPS + 1);
    }
}

/// Each operation's code is put, add, need or move.
pub fn codes_are_known(subject: &Subject) -> bool {
    used_ops(subject).all(|op| [PUT, ADD, NEED, MOVE].contains(&op.code))
}

/// An operation still to do gets a code that there is not.
pub fn odd_code(random: &mut Random, subject: &mut Subject) {
    change_last_op(random, subject, |random, op| op.code = random.pick(&ODD_CODES));
}

/// Each operation's cell is 0 to 63.
pub fn cells_are_in_range(subject: &Subject) -> bool {
    used_ops(subject).all(|op| usize::from(op.cell) < CELLS)
}

/// An operation still to do gets a cell that there is not.
pub fn odd_cell(random: &mut Random, subject: &mut Subject) {
    change_last_op(random, subject, |random, op| op.cell = byte_from(random, CELLS));
}

/// The second cell is zero except for a move, where it is 0 to 63 and differs from the cell.
pub fn second_cells_are_right(subject: &Subject) -> bool {
    used_ops(subject).all(|op| match op.code {
        MOVE => usize::from(op.second) < CELLS && op.second != op.cell,
        _ => op.second == 0,
    })
}

/// An operation still to do gets a second cell that it may not have.
pub fn odd_second(random: &mut Random, subject: &mut Subject) {
    change_last_op(random, subject, |random, op| {
        op.second = match op.code {
            MOVE => random.pick(&[op.cell, CELLS as u8, u8::MAX]),
            _ => byte_from(random, 1),
        }
    });
}

/// Operations past the number are all zero.
pub fn ops_past_the_number_are_zero(subject: &Subject) -> bool {
    used(subject).all(|slot| ops_and_past(slot).1.iter().all(|op| *op == Op::default()))
}

/// An operation past the number gets an amount.
pub fn op_past_the_number(random: &mut Random, subject: &mut Subject) {
    let short = |_, slot: &Slot| is_used(slot) && usize::from(slot.count) < MOST_OPS;
    if let Some(at) = any_slot(random, &subject.site, short) {
        subject.site.slots[at].ops[MOST_OPS - 1].amount = random.number() | 1;
    }
}
