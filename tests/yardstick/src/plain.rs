//! The site written by hand on `&mut Site`: the same calls, and the same check before each.

pub mod cells;
pub mod record;
pub mod sound;

use crate::call::{Answered, Call, Held, RUN, Takes};
use crate::raw::*;
use cells::{carry, of_class};
use model::record::CELLS;
use shpendorak::{Answer, Refusal};
use sound::{query_at, queue_of, sound};

/// The slot that is free: all zero.
pub const FREE: Slot = Slot {
    id: 0,
    class: 0,
    count: 0,
    ops: [Op { code: 0, cell: 0, second: 0, amount: 0 }; MOST_OPS],
    number: 0,
    done: 0,
    mark: 0,
    backs: 0,
};

/// A site whose calls are written by hand.
#[derive(Clone, Debug)]
pub struct Plain(pub Held);

impl Takes for Plain {
    /// A fresh site with its cells cleared.
    fn fresh() -> Plain {
        let site = Site {
            slots: [FREE; SLOTS],
            queue: [0; PLACES],
            lens: [0; CLASSES],
            low: 0,
            high: 0,
            confirmations: 0,
            commits: 0,
            kept: [0; KEPT],
            queries: [Query::default(); QUERIES],
            begun: 0,
            sums: [0; CLASSES],
        };
        Plain(Held { site, committed: vec![0; RUN], working: vec![0; RUN] })
    }

    /// Makes a call.
    fn take(&mut self, call: &Call) -> Answered {
        let Held { site, committed, working } = &mut self.0;
        match *call {
            Call::Offer(ref bytes) => offer(site, committed, working, bytes),
            Call::Confirm { id, number } => confirm(site, committed, working, id, number),
            Call::Work { class } => work(site, committed, working, class),
            Call::Read { class, cell } => read(site, committed, working, class, cell),
            Call::Look { id } => look(site, committed, working, id),
            Call::Query { mask } => query(site, committed, working, mask),
        }
    }

    /// The site and cells as they are now.
    fn held(&mut self) -> &mut Held {
        &mut self.0
    }
}

/// The refusal that every call begins with, if there is one.
fn door(site: &Site, committed: &[u32], working: &[u32]) -> Result<(), Refusal> {
    if committed.len() != RUN || working.len() != RUN {
        return Err(Refusal::WrongCells);
    }
    if sound(site, committed, working) { Ok(()) } else { Err(Refusal::Unsound) }
}

/// Queues the request of a record.
pub fn offer(site: &mut Site, committed: &[u32], working: &[u32], bytes: &[u8]) -> Answered {
    door(site, committed, working)?;
    let taken = record::parse(bytes).ok_or(Refusal::BadRecord)?;
    let (id, class) = (taken.id, taken.class);
    if slot_of(site, id.into()).is_some() {
        return Err(Refusal::IdQueued);
    }
    if site.kept.contains(&id) {
        return Err(Refusal::IdKept);
    }
    let slot = lowest_free(site).ok_or(Refusal::SiteFull)?;
    site.slots[usize::from(slot)] = taken;
    set_used(site, slot, true);
    let len = &mut site.lens[usize::from(class)];
    site.queue[CLASS_PLACES * usize::from(class) + usize::from(*len)] = slot;
    *len += 1;
    let (class, place, slot) = (class.into(), (*len).into(), slot.into());
    Ok(Answer::Queued { id, class, place, slot })
}

/// Confirms a queued id under the next number.
pub fn confirm(
    site: &mut Site,
    committed: &mut [u32],
    working: &mut [u32],
    id: u64,
    number: u64,
) -> Answered {
    door(site, committed, working)?;
    if site.confirmations == u32::MAX {
        return Err(Refusal::NumbersUsedUp);
    }
    let next = site.confirmations + 1;
    if number != next.into() {
        return Err(Refusal::WrongNumber);
    }
    let at = slot_of(site, id).ok_or(Refusal::IdNotQueued)?;
    let Slot { id, class, count, number, done, .. } = site.slots[at];
    if number != 0 {
        return Err(Refusal::ConfirmedAlready);
    }
    let class = usize::from(class);
    let head = usize::from(site.queue[CLASS_PLACES * class]);
    site.confirmations = next;
    site.slots[at].number = next;
    site.kept[next as usize % KEPT] = id;
    if head == at && done == count {
        return Ok(commit(site, committed, working, class));
    }
    let put_back =
        if head == at { 0 } else { put_waiting_head_back(site, committed, working, class) };
    move_forward(site, class, at);
    site.sums[class] += u16::from(count - done);
    Ok(Answer::Waiting { id, w: site.sums[class].into(), put_back })
}

/// Puts the head of a class back if it waits; its id or 0.
fn put_waiting_head_back(
    site: &mut Site,
    committed: &[u32],
    working: &mut [u32],
    class: usize,
) -> u32 {
    let head = queue_of(site, class).first().copied().filter(|&place| query_at(place).is_none());
    let Some(slot) = head.map(|place| &mut site.slots[usize::from(place)]) else {
        return 0;
    };
    if slot.number != 0 {
        return 0;
    }
    of_class(working, class).copy_from_slice(&committed[CELLS * class..][..CELLS]);
    slot.done = 0;
    slot.mark = 0;
    slot.backs += 1;
    slot.id
}

/// Begins a query over the classes of a mask.
pub fn query(site: &mut Site, committed: &[u32], working: &mut [u32], mask: u16) -> Answered {
    door(site, committed, working)?;
    if mask == 0 {
        return Err(Refusal::EmptyMask);
    }
    let free = site.queries.iter().position(|query| query.classes == 0);
    let index = free.ok_or(Refusal::QueriesOpen)?;
    site.begun = site.begun.checked_add(1).ok_or(Refusal::QueriesUsedUp)?;
    site.queries[index] = Query { classes: mask, begun: site.confirmations };
    for class in (0..CLASSES).filter(|class| mask >> class & 1 == 1) {
        put_waiting_head_back(site, committed, working, class);
        let to = first_waiting(site, class);
        let len = usize::from(site.lens[class]);
        let queue = &mut site.queue[CLASS_PLACES * class..][..=len];
        queue.copy_within(to..len, to + 1);
        queue[to] = (SLOTS + index) as u8;
        site.lens[class] += 1;
        site.sums[class] += 1;
    }
    Ok(Answer::Begun { place: index as u32 + 1 })
}

/// Where the first waiting request of a class stands; the queue's length where none waits.
fn first_waiting(site: &Site, class: usize) -> usize {
    let confirmed =
        |&place: &u8| query_at(place).is_some() || site.slots[usize::from(place)].number != 0;
    queue_of(site, class).partition_point(confirmed)
}

/// The entry of a query at the head of a class is read and taken away.
fn read_entry(site: &mut Site, committed: &[u32], class: usize, index: usize) -> Answer {
    take_head(site, class);
    site.sums[class] -= 1;
    let query = &mut site.queries[index];
    query.classes &= !(1 << class);
    if query.classes == 0 {
        *query = Query::default();
    }
    let cells = committed[CELLS * class..][..CELLS].try_into().expect("a class has 64 cells");
    Answer::Entry { place: index as u32 + 1, class: class as u32, cells }
}

/// The head of a class does its next operation.
pub fn work(site: &mut Site, committed: &mut [u32], working: &mut [u32], class: u64) -> Answered {
    door(site, committed, working)?;
    let class = usize::try_from(class).ok().filter(|&c| c < CLASSES).ok_or(Refusal::NoSuchClass)?;
    let place = *queue_of(site, class).first().ok_or(Refusal::NothingToDo)?;
    if let Some(index) = query_at(place) {
        return Ok(read_entry(site, committed, class, index));
    }
    let head = &mut site.slots[usize::from(place)];
    if head.done == head.count {
        return Err(Refusal::NothingToDo);
    }
    let cells = of_class(working, class);
    if head.mark == 0 && !carry(&head.ops[usize::from(head.done)], cells) {
        cells.copy_from_slice(&committed[CELLS * class..][..CELLS]);
        head.mark = head.done + 1;
    }
    head.done += 1;
    if head.number != 0 {
        site.sums[class] -= 1;
    }
    if head.done < head.count {
        return Ok(Answer::Stepped { id: head.id, done: head.done.into() });
    }
    if head.number == 0 {
        return Ok(Answer::Executed { id: head.id });
    }
    Ok(commit(site, committed, working, class))
}

/// The committed cell of a class.
pub fn read(site: &Site, committed: &[u32], working: &[u32], class: u64, cell: u64) -> Answered {
    door(site, committed, working)?;
    let class = usize::try_from(class).ok().filter(|&c| c < CLASSES).ok_or(Refusal::NoSuchClass)?;
    let cell = usize::try_from(cell).ok().filter(|&k| k < CELLS).ok_or(Refusal::NoSuchCell)?;
    Ok(Answer::Value(committed[CELLS * class + cell]))
}

/// W of a confirmed request, or that it is unconfirmed; and how often it was put back.
pub fn look(site: &Site, committed: &[u32], working: &[u32], id: u64) -> Answered {
    door(site, committed, working)?;
    let at = slot_of(site, id).ok_or(Refusal::IdNotQueued)?;
    let Slot { class, number, backs, .. } = site.slots[at];
    if number == 0 {
        return Ok(Answer::Unconfirmed { backs });
    }
    let class = usize::from(class);
    let last = queue_of(site, class)[..first_waiting(site, class)].last();
    let ends_part = last.is_some_and(|&place| usize::from(place) == at);
    let w = if ends_part { site.sums[class].into() } else { to_do(site, class, at) };
    Ok(Answer::ToDo { w, backs })
}

/// The slot of a queued id.
fn slot_of(site: &Site, id: u64) -> Option<usize> {
    site.slots.iter().position(|slot| slot.id != 0 && u64::from(slot.id) == id)
}

/// The lowest-numbered free slot.
fn lowest_free(site: &Site) -> Option<u8> {
    let free = !(u128::from(site.high) << u64::BITS | u128::from(site.low));
    (free != 0).then(|| free.trailing_zeros() as u8)
}

/// Writes in the map whether a slot is used.
fn set_used(site: &mut Site, slot: u8, used: bool) {
    let word = if u32::from(slot) < u64::BITS { &mut site.low } else { &mut site.high };
    let bit = 1 << (u32::from(slot) % u64::BITS);
    *word = if used { *word | bit } else { *word & !bit };
}

/// The work calls still to do by a slot and by all before it in the queue of its class.
fn to_do(site: &Site, class: usize, at: usize) -> u32 {
    let mut w = 0;
    for &place in queue_of(site, class) {
        let Some(slot) = site.slots.get(usize::from(place)) else {
            w += 1;
            continue;
        };
        w += u32::from(slot.count - slot.done);
        if usize::from(place) == at {
            break;
        }
    }
    w
}

/// Moves a slot that was just confirmed to directly before the first waiting one of its class.
fn move_forward(site: &mut Site, class: usize, at: usize) {
    let queue = &mut site.queue[CLASS_PLACES * class..][..usize::from(site.lens[class])];
    let waits = |&place: &u8| {
        usize::from(place) == at
            || query_at(place).is_none() && site.slots[usize::from(place)].number == 0
    };
    let to = queue.iter().position(waits);
    let from = queue.iter().position(|&place| usize::from(place) == at);
    if let (Some(to), Some(from)) = (to, from) {
        queue[to..=from].rotate_right(1);
    }
}

/// Takes the head of a class out of its queue; what named it there.
fn take_head(site: &mut Site, class: usize) -> u8 {
    let queue = &mut site.queue[CLASS_PLACES * class..][..usize::from(site.lens[class])];
    let head = queue[0];
    queue[0] = 0;
    queue.rotate_left(1);
    site.lens[class] -= 1;
    head
}

/// The head of a class commits: its cells, its place, its slot and the count.
fn commit(site: &mut Site, committed: &mut [u32], working: &[u32], class: usize) -> Answer {
    of_class(committed, class).copy_from_slice(&working[CELLS * class..][..CELLS]);
    let slot = take_head(site, class);
    let head = std::mem::replace(&mut site.slots[usize::from(slot)], FREE);
    set_used(site, slot, false);
    site.commits += 1;
    let Slot { id, number, mark, backs, .. } = head;
    Answer::Committed { id, number, mark: mark.into(), slot: slot.into(), backs }
}
