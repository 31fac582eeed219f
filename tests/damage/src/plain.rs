//! A sound subject as the model's plain queues, and back to its arrays.

use crate::subject::Subject;
use crate::view::{entry_of, has_to_read, kept, place_of, query_at, queue, recent};
use model::answer::Answer;
use model::record::{Op, Request};
use model::site::{Class, Entry, Item, Reading, Site};
use shpendorak::raw::{self, CELLS, CLASS_PLACES, CLASSES, Query, Slot};
use shpendorak::{Answer as Given, Refusal};

/// The plain queues that a sound subject stands for.
pub fn to_plain(subject: &Subject) -> Site {
    let classes = (0..CLASSES).map(|class| class_of(subject, class)).collect();
    let raw::Site { confirmations, commits, begun: queries, .. } = subject.site;
    let kept = recent(&subject.site).map(|number| kept(&subject.site, number)).collect();
    Site { classes, confirmations, commits, queries, kept }
}

/// One class of a sound subject.
fn class_of(subject: &Subject, class: usize) -> Class {
    let cells = class * CELLS..(class + 1) * CELLS;
    let places = queue(&subject.site, class).iter();
    Class {
        queue: places.map(|&place| item_of(&subject.site, place)).collect(),
        committed: subject.committed[cells.clone()].try_into().expect("a class has 64 cells"),
        working: subject.working[cells].try_into().expect("a class has 64 cells"),
    }
}

/// What a queue place of a sound site names.
fn item_of(site: &raw::Site, place: u8) -> Item {
    match query_at(place) {
        None => Item::Request(request_of(&site.slots[usize::from(place)], place)),
        Some(index) => {
            Item::Query(Reading { place: index as u8 + 1, begun: site.queries[index].begun })
        }
    }
}

/// The queued request of a used slot.
fn request_of(slot: &Slot, number: u8) -> Entry {
    let ops = slot.ops[..usize::from(slot.count)].iter().map(op_of).collect();
    Entry {
        request: Request { id: slot.id, class: slot.class, ops },
        slot: number,
        number: (slot.number != 0).then_some(slot.number),
        done: usize::from(slot.done),
        mark: usize::from(slot.mark),
        backs: slot.backs,
    }
}

/// The model's form of a valid operation.
fn op_of(op: &raw::Op) -> Op {
    let raw::Op { code, cell, second, amount } = *op;
    match code {
        raw::PUT => Op::Put { cell, amount },
        raw::ADD => Op::Add { cell, amount },
        raw::NEED => Op::Need { cell, amount },
        raw::MOVE => Op::Move { cell, second, amount },
        _ => unreachable!("a sound site has no operation {code}"),
    }
}

/// The one subject that stands for plain queues: what is not used is zero.
pub fn from_plain(plain: &Site) -> Subject {
    let mut subject = Subject::empty();
    for (class, queued) in plain.classes.iter().enumerate() {
        for (place, item) in queued.queue.iter().enumerate() {
            let name = put(&mut subject.site, class, item);
            subject.site.queue[class * CLASS_PLACES + place] = name;
        }
        subject.site.lens[class] = queued.queue.len() as u8;
        let confirmed = queued.queue.iter().filter(|item| !item.is_waiting());
        subject.site.sums[class] = confirmed.map(Item::to_do).sum::<usize>() as u16;
        let cells = class * CELLS..(class + 1) * CELLS;
        subject.committed[cells.clone()].copy_from_slice(&queued.committed);
        subject.working[cells].copy_from_slice(&queued.working);
    }
    subject.site.confirmations = plain.confirmations;
    subject.site.commits = plain.commits;
    subject.site.begun = plain.queries;
    for (number, id) in recent(&subject.site).zip(&plain.kept) {
        subject.site.kept[place_of(number)] = *id;
    }
    subject
}

/// Puts what stands in the queue of a class into the site; what names it there.
fn put(site: &mut raw::Site, class: usize, item: &Item) -> u8 {
    match item {
        Item::Request(entry) => {
            let at = usize::from(entry.slot);
            site.slots[at] = slot_of(entry);
            mark_used(site, at);
            entry.slot
        }
        Item::Query(Reading { place, begun }) => {
            let index = usize::from(*place) - 1;
            let query = &mut site.queries[index];
            assert!(!has_to_read(query, class), "a query has one entry at most in a queue");
            *query = Query { classes: query.classes | 1 << class, begun: *begun };
            entry_of(index)
        }
    }
}

/// Notes in the map that a slot is used.
fn mark_used(site: &mut raw::Site, slot: usize) {
    let words = [&mut site.low, &mut site.high];
    let width = u64::BITS as usize;
    *words[slot / width] |= 1 << (slot % width);
}

/// The slot of a queued request.
fn slot_of(entry: &Entry) -> Slot {
    let mut slot = Slot {
        id: entry.request.id,
        class: entry.request.class,
        count: entry.request.ops.len() as u8,
        number: entry.number.unwrap_or(0),
        done: entry.done as u8,
        mark: entry.mark as u8,
        backs: entry.backs,
        ..Slot::default()
    };
    for (op, raw) in entry.request.ops.iter().zip(&mut slot.ops) {
        *raw = raw_op(*op);
    }
    slot
}

/// The operation as a slot has it.
fn raw_op(op: Op) -> raw::Op {
    match op {
        Op::Put { cell, amount } => raw::Op { code: raw::PUT, cell, second: 0, amount },
        Op::Add { cell, amount } => raw::Op { code: raw::ADD, cell, second: 0, amount },
        Op::Need { cell, amount } => raw::Op { code: raw::NEED, cell, second: 0, amount },
        Op::Move { cell, second, amount } => raw::Op { code: raw::MOVE, cell, second, amount },
    }
}

/// An answer of the model as the library gives it.
pub fn given(answer: Answer) -> Result<Given, Refusal> {
    let narrow = |number: usize| number as u32;
    Ok(match answer {
        Answer::Queued { id, class, place, slot } => {
            Given::Queued { id, class: class.into(), place: narrow(place), slot: slot.into() }
        }
        Answer::Stepped { id, done } => Given::Stepped { id, done: narrow(done) },
        Answer::Executed { id } => Given::Executed { id },
        Answer::Committed { id, number, mark, slot, backs } => {
            Given::Committed { id, number, mark: narrow(mark), slot: slot.into(), backs }
        }
        Answer::Waiting { id, w, put_back } => Given::Waiting { id, w: narrow(w), put_back },
        Answer::Value(cell) => Given::Value(cell),
        Answer::ToDo { w, backs } => Given::ToDo { w: narrow(w), backs },
        Answer::Unconfirmed { backs } => Given::Unconfirmed { backs },
        Answer::Begun { place } => Given::Begun { place: place.into() },
        Answer::Read { place, class, cells } => {
            Given::Entry { place: place.into(), class: class.into(), cells }
        }
        Answer::Refused(number) => {
            return Err(Refusal::numbered(number.into()).expect("a refusal of a call"));
        }
    })
}
