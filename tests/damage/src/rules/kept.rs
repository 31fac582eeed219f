//! The sound rules about the ids of the last 256 confirmations.

use crate::aim::any_slot;
use crate::subject::Subject;
use crate::view::{differ, is_confirmed, is_used, kept, place_of, recent, used};
use model::random::Random;
use shpendorak::raw::{KEPT, Site};

/// Kept ids are not 0.
pub fn kept_ids_are_not_zero(subject: &Subject) -> bool {
    recent(&subject.site).all(|number| kept(&subject.site, number) != 0)
}

/// One of the last numbers whose request is not queued any more, if there is one.
fn any_committed(random: &mut Random, site: &Site) -> Option<u64> {
    let queued = |number| site.slots.iter().any(|slot| u64::from(slot.number) == number);
    let numbers: Vec<u64> = recent(site).filter(|&number| !queued(number)).collect();
    (!numbers.is_empty()).then(|| random.pick(&numbers))
}

/// A kept id becomes 0.
pub fn kept_zero(random: &mut Random, subject: &mut Subject) {
    if let Some(number) = any_committed(random, &subject.site) {
        subject.site.kept[place_of(number)] = 0;
    }
}

/// Kept ids differ; those that are 0 break another rule.
pub fn kept_ids_differ(subject: &Subject) -> bool {
    let ids = recent(&subject.site).map(|number| kept(&subject.site, number));
    differ(ids.filter(|id| *id != 0))
}

/// A kept id becomes equal to another.
pub fn kept_twice(random: &mut Random, subject: &mut Subject) {
    let (one, other) = (any_committed(random, &subject.site), any_committed(random, &subject.site));
    if let (Some(one), Some(other)) = (one, other) {
        subject.site.kept[place_of(one)] = kept(&subject.site, other);
    }
}

/// A queued request has a kept id exactly if its number is kept, and then the one under it.
pub fn queued_ids_are_kept_as_numbered(subject: &Subject) -> bool {
    let site = &subject.site;
    used(subject).all(|slot| {
        recent(site).all(|n| (u64::from(slot.number) == n) == (slot.id == kept(site, n)))
    })
}

/// A confirmed request gets another id than the one kept, or a waiting one gets a kept id.
pub fn kept_wrong(random: &mut Random, subject: &mut Subject) {
    let any = random.number() | 1;
    let site = &mut subject.site;
    let Some(at) = any_slot(random, site, |_, slot| is_used(slot)) else {
        return;
    };
    if is_confirmed(&site.slots[at]) {
        site.slots[at].id = any;
    } else if let Some(number) = any_committed(random, site) {
        site.slots[at].id = kept(site, number);
    }
}

/// Places of kept ids that no number has yet are zero.
pub fn unused_places_are_zero(subject: &Subject) -> bool {
    let next = u64::from(subject.site.confirmations) + 1;
    (next..=KEPT as u64).all(|number| kept(&subject.site, number) == 0)
}

/// A place that no number has yet gets an id.
pub fn unused_place_filled(random: &mut Random, subject: &mut Subject) {
    let given = subject.site.confirmations as usize;
    if given < KEPT {
        let number = given + 1 + random.below(KEPT - given);
        subject.site.kept[place_of(number as u64)] = random.number() | 1;
    }
}
