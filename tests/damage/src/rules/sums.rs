//! The sound rule about the sum that stands with each class.

use crate::aim::HALF;
use crate::subject::Subject;
use crate::view::{is_confirmed, named, query_at, queue};
use model::random::Random;
use shpendorak::raw::{CLASSES, Site};

/// What a place of a queue has still to do if it stands in the confirmed part: an entry of a query one
/// work call, a confirmed request one for each operation not done, anything else none.
fn to_do(site: &Site, place: u8) -> u64 {
    if query_at(place).is_some() {
        return 1;
    }
    let confirmed = named(site, place).filter(|slot| is_confirmed(slot));
    confirmed.map_or(0, |slot| slot.count.saturating_sub(slot.done).into())
}

/// With each class stand the operations and query entries still to do by its confirmed part.
pub fn sums_are_right(subject: &Subject) -> bool {
    let site = &subject.site;
    (0..CLASSES).all(|class| {
        let places = queue(site, class).iter();
        u64::from(site.sums[class]) == places.map(|&place| to_do(site, place)).sum()
    })
}

/// The sum of a class is wrong: by one, by what its first waiting request has to do, or by far.
pub fn sum_wrong(random: &mut Random, subject: &mut Subject) {
    let site = &mut subject.site;
    let class = random.below(CLASSES);
    let mut slots = queue(site, class).iter().filter_map(|&place| named(site, place));
    let waiting = slots.find(|slot| !is_confirmed(slot)).map_or(1, |slot| slot.count.into());
    let any = random.number() as u16;
    let by = random.pick(&[1, 1, waiting, any]);
    let sum = &mut site.sums[class];
    *sum = if random.chance(HALF) { sum.wrapping_add(by) } else { sum.wrapping_sub(by) };
}
