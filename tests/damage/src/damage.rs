//! The ways to damage a subject.

use crate::aim::{HALF, age};
use crate::plain::{from_plain, to_plain};
use crate::rules::Rule;
use crate::subject::{FIELDS, Field, Subject, field_of};
use crate::view::is_used;
use model::craft;
use model::random::Random;
use model::site::Item;
use shpendorak::raw::{MOST_OPS, RUN_LENGTH, SLOTS};

/// Lengths that runs of cells must not have.
const WRONG_LENGTHS: [usize; 6] = [0, 1, 64, 1023, 1025, 2048];
/// How many fields are taken from another site.
const MIXED: [usize; 5] = [1, 1, 2, 3, 9];

/// A damaged subject, and what was done to it.
pub struct Damaged {
    /// The subject as it is now.
    pub subject: Subject,
    /// What was done, in words.
    pub how: String,
}

/// A subject left as it is.
pub fn none(base: &Subject) -> Damaged {
    Damaged { subject: base.clone(), how: "no damage".to_string() }
}

/// One number of a subject changed, counted from 0 over all fields: in one bit, or to a value.
pub fn one_number(random: &mut Random, base: &Subject, at: usize) -> Damaged {
    let (field, place) = field_of(at);
    let mut subject = base.clone();
    let neighbour = (field.spot)(&mut subject, random.below(field.count)).get();
    let mut spot = (field.spot)(&mut subject, place);
    let before = spot.get();
    let bit = 1 << random.below(spot.bits());
    let any = random.bits();
    let (next, last) = (before.wrapping_add(1), before.wrapping_sub(1));
    spot.set(random.pick(&[0, 1, u64::MAX, next, last, neighbour, any]));
    if random.chance(HALF) || spot.get() == before {
        spot.set(before ^ bit);
    }
    let how = format!("{} {place} from {before} to {}", field.name, spot.get());
    Damaged { subject, how }
}

/// A subject damaged in a way that aims at a rule.
pub fn aimed(random: &mut Random, base: &Subject, rule: &Rule) -> Damaged {
    let mut subject = base.clone();
    (rule.breach)(random, &mut subject);
    Damaged { subject, how: format!("aimed at \"{}\"", rule.words) }
}

/// Some fields of another subject, the rest of this one.
pub fn mixed(random: &mut Random, base: &Subject, other: &Subject) -> Damaged {
    let (mut subject, mut other) = (base.clone(), other.clone());
    let mut names = Vec::new();
    for _ in 0..random.pick(&MIXED) {
        let field = &FIELDS[random.below(FIELDS.len())];
        take_field(&mut subject, &mut other, field);
        names.push(field.name);
    }
    Damaged { subject, how: format!("of another site: {}", names.join(", ")) }
}

/// Takes all numbers of a field from another subject.
fn take_field(subject: &mut Subject, other: &mut Subject, field: &Field) {
    for place in 0..field.count {
        let number = (field.spot)(other, place).get();
        (field.spot)(subject, place).set(number);
    }
}

/// All counts and all times put back raised, up to or near the last number, with other ids kept: a
/// sound site mostly stays sound.
pub fn late(random: &mut Random, base: &Subject) -> Damaged {
    let mut subject = base.clone();
    let room = u32::MAX - subject.site.confirmations.max(subject.site.commits);
    let raise = room.saturating_sub(random.pick(&[0, 1, 2]));
    age(random, &mut subject.site, raise);
    for slot in subject.site.slots.iter_mut().filter(|slot| is_used(slot)) {
        slot.backs += u64::from(raise);
    }
    let left = random.pick(&[0, 1, 2]);
    subject.site.begun = subject.site.begun.max(u32::MAX - left);
    Damaged { subject, how: format!("all counts raised by {raise}, other ids kept") }
}

/// Another sound site: slots change their names, requests were put back as often as may be, those
/// with nothing done get other operations, and cells that nothing was done on get other values.
pub fn still_sound(random: &mut Random, base: &Subject) -> Damaged {
    let mut plain = to_plain(base);
    let turn = random.below(SLOTS);
    let most_backs = u64::from(plain.confirmations) + u64::from(plain.queries);
    for class in &mut plain.classes {
        for item in &mut class.queue {
            let Item::Request(entry) = item else {
                continue;
            };
            entry.slot = ((usize::from(entry.slot) + turn) % SLOTS) as u8;
            entry.backs = random.pick(&[0, entry.backs, most_backs]);
            if entry.done == 0 {
                let (id, count) = (entry.request.id, 1 + random.below(MOST_OPS));
                entry.request = craft::request(random, id, entry.request.class, count);
            }
        }
        if class.queue.first().and_then(Item::request).is_none_or(|head| head.done == 0) {
            class.committed = class.committed.map(|_| some_cell(random));
            class.working = class.committed;
        }
    }
    Damaged { subject: from_plain(&plain), how: "another sound site".to_string() }
}

/// A number of a cell, mostly near an end.
fn some_cell(random: &mut Random) -> u32 {
    let (small, any) = (u32::from(random.byte()), random.number());
    random.pick(&[0, small, small, u32::MAX - small, any])
}

/// One run of cells or both with a wrong length.
pub fn wrong_cells(random: &mut Random, damaged: Damaged) -> Damaged {
    let Damaged { mut subject, how } = damaged;
    let (one, other) = (random.pick(&WRONG_LENGTHS), random.pick(&WRONG_LENGTHS));
    let lengths = [(one, RUN_LENGTH), (RUN_LENGTH, one), (one, other)];
    let (committed, working) = random.pick(&lengths);
    subject.committed.resize(committed, 0);
    subject.working.resize(working, 0);
    Damaged { subject, how: format!("{how}, then runs of {committed} and {working} cells") }
}

/// A site of random bytes; the cells of the base, or random too.
pub fn chance_bytes(random: &mut Random, base: &Subject) -> Damaged {
    let mut subject = base.clone();
    let with_cells = random.chance(HALF);
    for field in FIELDS.iter().filter(|field| with_cells || field.count != RUN_LENGTH) {
        scatter(random, &mut subject, field);
    }
    Damaged { subject, how: format!("random bytes, cells too: {with_cells}") }
}

/// All numbers of one field random.
pub fn chance_field(random: &mut Random, base: &Subject) -> Damaged {
    let mut subject = base.clone();
    let field = &FIELDS[random.below(FIELDS.len())];
    scatter(random, &mut subject, field);
    Damaged { subject, how: format!("{} random", field.name) }
}

/// Puts random numbers into all places of a field.
fn scatter(random: &mut Random, subject: &mut Subject, field: &Field) {
    for place in 0..field.count {
        (field.spot)(subject, place).set(random.bits());
    }
}
