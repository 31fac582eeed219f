//! Choices among what a site has, for damage that aims.

use crate::view::{place_of, queue, recent};
use model::random::Random;
use shpendorak::raw::{CLASS_PLACES, CLASSES, SLOTS, Site, Slot};

/// One time in two, out of a hundred.
pub const HALF: usize = 50;
/// How many values a byte has.
const BYTES: usize = 1 << u8::BITS;

/// One of the slots that a test allows, if there is any.
pub fn any_slot(
    random: &mut Random,
    site: &Site,
    allows: impl Fn(usize, &Slot) -> bool,
) -> Option<usize> {
    let allowed: Vec<usize> = (0..SLOTS).filter(|&at| allows(at, &site.slots[at])).collect();
    (!allowed.is_empty()).then(|| random.pick(&allowed))
}

/// One of the classes that a test allows, if there is any.
pub fn any_class(random: &mut Random, allows: impl Fn(usize) -> bool) -> Option<usize> {
    let allowed: Vec<usize> = (0..CLASSES).filter(|&class| allows(class)).collect();
    (!allowed.is_empty()).then(|| random.pick(&allowed))
}

/// Two neighbours in a queue that a test allows change places.
pub fn swap_places(random: &mut Random, site: &mut Site, allows: impl Fn(&Site, u8, u8) -> bool) {
    let pairs = (0..CLASSES).flat_map(|class| {
        let pairs = queue(site, class).windows(2).enumerate();
        pairs.map(move |(place, pair)| (class * CLASS_PLACES + place, pair[0], pair[1]))
    });
    let allowed: Vec<usize> =
        pairs.filter(|&(_, one, next)| allows(site, one, next)).map(|(at, _, _)| at).collect();
    if !allowed.is_empty() {
        let at = random.pick(&allowed);
        site.queue.swap(at, at + 1);
    }
}

/// Raises both counts alike and keeps other ids: a sound site mostly stays sound, and after 256 its
/// numbers are not kept any more.
pub fn age(random: &mut Random, site: &mut Site, raise: u32) {
    site.confirmations = site.confirmations.saturating_add(raise);
    site.commits = site.commits.saturating_add(raise);
    let queued = site.slots.map(|slot| slot.id);
    let mut ids = (random.number() | 1..=u32::MAX).filter(|id| !queued.contains(id));
    for number in recent(site) {
        site.kept[place_of(number)] = ids.next().unwrap_or(0);
    }
}

/// A byte from a least one up to 255.
pub fn byte_from(random: &mut Random, least: usize) -> u8 {
    (least + random.below(BYTES - least)) as u8
}
