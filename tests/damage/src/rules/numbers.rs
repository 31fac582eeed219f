//! The sound rules about ids, definitive numbers, times put back and the two counts.

use crate::aim::{HALF, age, any_slot, swap_places};
use crate::subject::Subject;
use crate::view::{differ, is_confirmed, is_used, named, queued, used};
use model::random::Random;
use shpendorak::raw::{CLASSES, Site, Slot};

/// So many confirmations later no number is kept any more.
const LONG_AGO: u32 = 1_000;
/// No counts of confirmations and queries together are as large.
const BEYOND_33_BITS: u64 = 1 << (u32::BITS + 1);

/// Ids differ.
pub fn ids_differ(subject: &Subject) -> bool {
    differ(used(subject).map(|slot| slot.id))
}

/// A request gets the id of another.
pub fn equal_ids(random: &mut Random, subject: &mut Subject) {
    let site = &mut subject.site;
    if let Some(at) = any_slot(random, site, |_, slot| is_used(slot)) {
        let id = site.slots[at].id;
        if let Some(other) = any_slot(random, site, |other, slot| is_used(slot) && other != at) {
            site.slots[other].id = id;
        }
    }
}

/// Two neighbouring requests that a test allows change places in a queue.
fn swap_neighbours(random: &mut Random, subject: &mut Subject, allows: fn(&Slot, &Slot) -> bool) {
    swap_places(random, &mut subject.site, |site, one, next| {
        let slots = named(site, one).zip(named(site, next));
        slots.is_some_and(|(one, next)| one.done == 0 && allows(one, next))
    });
}

/// In each queue the confirmed stand before the waiting.
pub fn confirmed_stand_first(subject: &Subject) -> bool {
    (0..CLASSES).all(|class| queued(&subject.site, class).is_sorted_by_key(|s| !is_confirmed(s)))
}

/// The last confirmed of a queue and the first waiting change places.
pub fn waiting_first(random: &mut Random, subject: &mut Subject) {
    swap_neighbours(random, subject, |one, next| is_confirmed(one) && !is_confirmed(next));
}

/// In each queue the numbers of the confirmed rise.
pub fn numbers_rise(subject: &Subject) -> bool {
    (0..CLASSES).all(|class| {
        let confirmed = queued(&subject.site, class).filter(|slot| is_confirmed(slot));
        confirmed.map(|slot| slot.number).is_sorted_by(|one, next| one < next)
    })
}

/// Two confirmed neighbours change places.
pub fn falling_numbers(random: &mut Random, subject: &mut Subject) {
    swap_neighbours(random, subject, |one, next| is_confirmed(one) && is_confirmed(next));
}

/// The numbers of the confirmed requests.
fn numbers(subject: &Subject) -> impl Iterator<Item = u32> {
    used(subject).filter(|slot| is_confirmed(slot)).map(|slot| slot.number)
}

/// Confirmed numbers differ over the whole site.
pub fn numbers_differ(subject: &Subject) -> bool {
    differ(numbers(subject))
}

/// A confirmed request gets the number of one of another class, both no longer kept.
pub fn equal_numbers(random: &mut Random, subject: &mut Subject) {
    let site = &mut subject.site;
    age(random, site, LONG_AGO);
    if let Some(at) = any_slot(random, site, |_, slot| is_confirmed(slot)) {
        let Slot { number, class, .. } = site.slots[at];
        let elsewhere = |_, slot: &Slot| is_confirmed(slot) && slot.class != class;
        if let Some(other) = any_slot(random, site, elsewhere) {
            site.slots[other].number = number;
        }
    }
}

/// Confirmed numbers lie between 1 and the count of confirmations.
pub fn numbers_are_counted(subject: &Subject) -> bool {
    numbers(subject).all(|number| (1..=subject.site.confirmations).contains(&number))
}

/// A confirmed request whose number is no longer kept gets one above the count of confirmations.
pub fn number_above_count(random: &mut Random, subject: &mut Subject) {
    let site = &mut subject.site;
    age(random, site, LONG_AGO);
    if let Some(at) = any_slot(random, site, |_, slot| is_confirmed(slot)) {
        let above = site.confirmations.checked_add(1 + random.byte() as u32);
        site.slots[at].number = above.unwrap_or(u32::MAX);
    }
}

/// The count of confirmations equals the count of commits plus the confirmed requests queued.
pub fn counts_agree(subject: &Subject) -> bool {
    let Site { confirmations, commits, .. } = subject.site;
    u64::from(confirmations) == u64::from(commits) + numbers(subject).count() as u64
}

/// The count of commits is wrong by one.
pub fn commits_wrong(random: &mut Random, subject: &mut Subject) {
    let commits = &mut subject.site.commits;
    *commits = if random.chance(HALF) { commits.wrapping_add(1) } else { commits.wrapping_sub(1) };
}

/// The confirmations and the queries begun.
fn confirmations_and_queries(site: &Site) -> u64 {
    u64::from(site.confirmations) + u64::from(site.begun)
}

/// No count of times put back is above the count of confirmations and queries begun.
pub fn backs_are_counted(subject: &Subject) -> bool {
    let most = confirmations_and_queries(&subject.site);
    used(subject).all(|slot| slot.backs <= most)
}

/// A request was put back more often than there were of these: once, somewhat or far more.
pub fn backs_above_count(random: &mut Random, subject: &mut Subject) {
    let site = &mut subject.site;
    if let Some(at) = any_slot(random, site, |_, slot| is_used(slot)) {
        let most = confirmations_and_queries(site);
        let (some, any) = (u64::from(random.byte()), random.bits());
        let above = [most + 1, most + 1 + some, any | BEYOND_33_BITS, u64::MAX];
        site.slots[at].backs = random.pick(&above);
    }
}
