//! The sound rules about where slots stand: queues, places past their ends, the map of used slots.

use crate::aim::{HALF, any_class, any_slot, byte_from};
use crate::plain::from_plain;
use crate::subject::Subject;
use crate::view::{is_confirmed, is_used, named, query_at, queue, queue_and_past};
use model::craft;
use model::random::Random;
use model::record;
use model::site::Site as Plain;
use shpendorak::raw::{CLASS_PLACES, CLASSES, QUERIES, SLOTS, Site, Slot};

/// No queue is longer than 136.
pub fn queues_are_short(subject: &Subject) -> bool {
    subject.site.lens.iter().all(|len| usize::from(*len) <= CLASS_PLACES)
}

/// A queue that has all requests and an entry of each query says that it is longer than it can be.
pub fn queue_too_long(random: &mut Random, subject: &mut Subject) {
    *subject = full_queue(random);
    let lens = &mut subject.site.lens;
    let longest = lens.iter_mut().max().expect("there are 16 queues");
    *longest = byte_from(random, CLASS_PLACES + 1);
}

/// A site in which all slots and all queries stand in the queue of one class.
fn full_queue(random: &mut Random) -> Subject {
    let mut plain = Plain::fresh();
    let class = random.below(CLASSES) as u8;
    for id in 1..=SLOTS as u32 {
        plain.offer(&record::write(&craft::request(random, id, class, 1)));
    }
    for _ in 0..QUERIES {
        plain.query(1 << class);
    }
    from_plain(&plain)
}

/// How often each slot stands in each queue.
fn standing(site: &Site) -> Vec<[usize; CLASSES]> {
    let mut times = vec![[0; CLASSES]; SLOTS];
    for class in 0..CLASSES {
        for place in queue(site, class) {
            if let Some(times) = times.get_mut(usize::from(*place)) {
                times[class] += 1;
            }
        }
    }
    times
}

/// Whether for every used slot its class and how often it stands in each queue pass a test.
fn each_stands(subject: &Subject, passes: fn(usize, &[usize; CLASSES]) -> bool) -> bool {
    let times = standing(&subject.site);
    let mut slots = subject.site.slots.iter().zip(&times).filter(|(slot, _)| is_used(slot));
    slots.all(|(slot, times)| passes(usize::from(slot.class), times))
}

/// A number joins the end of a class queue, if it has a place left.
fn join(site: &mut Site, class: usize, number: u8) {
    let len = usize::from(site.lens[class]);
    if len < CLASS_PLACES {
        site.queue[class * CLASS_PLACES + len] = number;
        site.lens[class] += 1;
    }
}

/// Every used slot stands in the queue of its class.
pub fn used_slots_stand(subject: &Subject) -> bool {
    each_stands(subject, |class, times| times.get(class).is_some_and(|times| *times > 0))
}

/// The last of a queue is left out of it.
pub fn slot_left_out(random: &mut Random, subject: &mut Subject) {
    let site = &mut subject.site;
    let behind = |class| matches!(queue(site, class), [_, .., last] if query_at(*last).is_none());
    if let Some(class) = any_class(random, behind) {
        let last = queue(site, class).len() - 1;
        site.queue[class * CLASS_PLACES + last] = 0;
        site.lens[class] = last as u8;
    }
}

/// No used slot stands more than once in the queue of its class.
pub fn used_slots_stand_once(subject: &Subject) -> bool {
    each_stands(subject, |class, times| times.get(class).is_none_or(|times| *times <= 1))
}

/// A waiting request joins its queue a second time.
pub fn slot_twice(random: &mut Random, subject: &mut Subject) {
    let site = &mut subject.site;
    let waits = |_, slot: &Slot| is_used(slot) && !is_confirmed(slot);
    if let Some(at) = any_slot(random, site, waits) {
        let class = usize::from(site.slots[at].class) % CLASSES;
        join(site, class, at as u8);
    }
}

/// No used slot stands in the queue of another class.
pub fn used_slots_stand_nowhere_else(subject: &Subject) -> bool {
    each_stands(subject, |own, times| {
        times.iter().enumerate().all(|(class, times)| class == own || *times == 0)
    })
}

/// A waiting request joins the queue of another class too.
pub fn slot_in_other_queue(random: &mut Random, subject: &mut Subject) {
    let site = &mut subject.site;
    let waits = |_, slot: &Slot| is_used(slot) && !is_confirmed(slot);
    if let Some(at) = any_slot(random, site, waits) {
        let own = usize::from(site.slots[at].class);
        let other = |class: usize| class != own && !queue(site, class).is_empty();
        if let Some(class) = any_class(random, other) {
            join(site, class, at as u8);
        }
    }
}

/// No free slot stands in a queue, nor a number that is none of a slot or query.
pub fn free_slots_stand_nowhere(subject: &Subject) -> bool {
    let site = &subject.site;
    let mut places = (0..CLASSES).flat_map(|class| queue(site, class));
    places.all(|&place| query_at(place).is_some() || named(site, place).is_some_and(is_used))
}

/// A free slot, or a number that is none of a slot or query, joins a queue.
pub fn free_slot_in_queue(random: &mut Random, subject: &mut Subject) {
    let free = any_slot(random, &subject.site, |_, slot| !is_used(slot));
    let number = if random.chance(HALF) { free.map(|at| at as u8) } else { None };
    let number = number.unwrap_or_else(|| byte_from(random, SLOTS + QUERIES));
    let taken = |class| !queue(&subject.site, class).is_empty();
    if let Some(class) = any_class(random, taken) {
        join(&mut subject.site, class, number);
    }
}

/// Queue places past the end are zero.
pub fn places_past_the_end_are_zero(subject: &Subject) -> bool {
    let mut past = (0..CLASSES).flat_map(|class| queue_and_past(&subject.site, class).1);
    past.all(|place| *place == 0)
}

/// A place past the end of a queue gets a number.
pub fn place_past_the_end(random: &mut Random, subject: &mut Subject) {
    let site = &mut subject.site;
    if let Some(class) = any_class(random, |class| queue(site, class).len() < CLASS_PLACES) {
        let end = queue(site, class).len();
        let place = end + random.below(CLASS_PLACES - end);
        site.queue[class * CLASS_PLACES + place] = byte_from(random, 1);
    }
}

/// The map of used slots agrees.
pub fn map_agrees(subject: &Subject) -> bool {
    let map = u128::from(subject.site.high) << u64::BITS | u128::from(subject.site.low);
    let mut slots = subject.site.slots.iter().enumerate();
    slots.all(|(at, slot)| is_used(slot) == (map >> at & 1 == 1))
}

/// The map is wrong about a slot.
pub fn map_wrong(random: &mut Random, subject: &mut Subject) {
    let bit = 1 << random.below(u64::BITS as usize);
    if random.chance(HALF) {
        subject.site.low ^= bit;
    } else {
        subject.site.high ^= bit;
    }
}
