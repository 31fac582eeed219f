//! Calls with good and bad arguments, made to suit a subject.

use crate::aim::HALF;
use crate::call::Call;
use crate::subject::Subject;
use crate::view::{is_used, queue};
use model::craft::{self, DAMAGES};
use model::event::{CONFIRM, Event, OFFER, READ, WORK};
use model::random::Random;
use model::record::{self, number_at};
use shpendorak::raw::{CELLS, CLASSES, MOST_OPS, SLOTS, Site};

/// Out of a hundred arguments, how many are good ones.
const GOOD: usize = 75;
/// What a number differs by from one that looks like it where 32 bits are kept.
const BEYOND_32_BITS: u64 = 1 << u32::BITS;
/// What a class or cell differs by from one that looks like it where 8 bits are kept.
const BEYOND_8_BITS: u64 = 1 << u8::BITS;
/// Lengths of records that are no records.
const ODD_LENGTHS: [usize; 5] = [0, 1, 63, 65, 128];

/// One call of each kind.
pub fn each(random: &mut Random, subject: &Subject) -> [Call; 7] {
    let site = &subject.site;
    [
        Call::Fresh,
        Call::Offer { booking: booking(random, site) },
        Call::Confirm { id: id(random, site), number: number(random, site) },
        Call::Work { class: class(random, site) },
        Call::Read { class: class(random, site), cell: below(random, CELLS) },
        Call::Look { id: id(random, site) },
        query(random),
    ]
}

/// A query, mostly over a few classes; else over any, all or none.
pub fn query(random: &mut Random) -> Call {
    let few = 1 << random.below(CLASSES) | 1 << random.below(CLASSES);
    let any = random.number() as u16;
    Call::Query { mask: random.pick(&[few, few, few, any, u16::MAX, 0]) }
}

/// A look.
pub fn look(random: &mut Random, subject: &Subject) -> Call {
    Call::Look { id: id(random, &subject.site) }
}

/// The call that an event asks for; none if its kind is unknown.
pub fn of_event(event: &Event) -> Option<Call> {
    let (class, cell) = (event.class.into(), event.cell.into());
    match event.kind {
        OFFER => Some(Call::Offer { booking: event.record.to_vec() }),
        CONFIRM => {
            let id = number_at(&event.record, 0).into();
            Some(Call::Confirm { id, number: event.number.into() })
        }
        WORK => Some(Call::Work { class }),
        READ => Some(Call::Read { class, cell }),
        _ => None,
    }
}

/// Mostly the id of a used slot; else any, or one that looks like it in 32 bits.
fn id(random: &mut Random, site: &Site) -> u64 {
    let ids: Vec<u32> = site.slots.iter().filter(|s| is_used(s)).map(|slot| slot.id).collect();
    let known = if ids.is_empty() { 1 } else { u64::from(random.pick(&ids)) };
    if random.chance(GOOD) {
        return known;
    }
    let any = random.bits();
    random.pick(&[0, 1, known + BEYOND_32_BITS, u64::from(u32::MAX), any, u64::MAX])
}

/// Mostly the next number; else one beside it, any, or one that looks like it in 32 bits.
fn number(random: &mut Random, site: &Site) -> u64 {
    let taken = u64::from(site.confirmations);
    if random.chance(GOOD) {
        return taken + 1;
    }
    let any = random.bits();
    random.pick(&[0, taken, taken + 2, taken + 1 + BEYOND_32_BITS, any, u64::MAX])
}

/// Mostly a class with a queue; else any, or one that looks like it in 8 bits.
fn class(random: &mut Random, site: &Site) -> u64 {
    let busy: Vec<usize> = (0..CLASSES).filter(|&class| !queue(site, class).is_empty()).collect();
    if !busy.is_empty() && random.chance(GOOD) {
        return random.pick(&busy) as u64;
    }
    below(random, CLASSES)
}

/// Mostly a number below an end; else one at or past it, or one that looks like it in 8 bits.
fn below(random: &mut Random, end: usize) -> u64 {
    let good = random.below(end) as u64;
    if random.chance(GOOD) {
        return good;
    }
    let any = random.bits();
    let end = end as u64;
    random.pick(&[end, good + BEYOND_8_BITS, good + BEYOND_32_BITS, any, u64::MAX])
}

/// Mostly a valid record, with a new id, a queued or a kept one; else a broken one or one of odd length.
fn booking(random: &mut Random, site: &Site) -> Vec<u8> {
    let slot = site.slots[random.below(SLOTS)];
    let (any, kept) = (random.number() | 1, random.pick(&site.kept));
    let id = match (is_used(&slot) && random.chance(HALF), kept != 0 && random.chance(HALF)) {
        (true, _) => slot.id,
        (_, true) => kept,
        _ => any,
    };
    let class = random.below(CLASSES) as u8;
    let count = 1 + random.below(MOST_OPS);
    let mut bytes = record::write(&craft::request(random, id, class, count));
    if random.chance(GOOD) {
        return bytes.to_vec();
    }
    if random.chance(HALF) {
        let damage = random.pick(&DAMAGES);
        damage(random, &mut bytes);
        return bytes.to_vec();
    }
    let length = random.pick(&ODD_LENGTHS);
    bytes.into_iter().cycle().take(length).collect()
}
