//! The archive and plain Rust on the same input, good and bad: the same answers, sites and cells.

use model::event::Event;
use model::random::Random;
use model::stream::{KINDS, Stream};
use shpendorak::Refusal;
use yardstick::archive::Archive;
use yardstick::call::{Answered, Call, Held, Takes};
use yardstick::load::{LOADS, Script};
use yardstick::plain::Plain;
use yardstick::raw::*;

/// The classes of the query that is begun last.
const OPEN: u16 = 0b1100_0000_0000_0000;
/// How many calls bring a site to the states that are spoiled.
const LEAD: usize = 400;
/// How many sites are spoiled by chance.
const SPOILED: usize = 30_000;
/// How many events each stream has.
const EVENTS: u64 = 3_000;

/// One call of each kind.
fn calls() -> [Call; 6] {
    let record = [0; 64];
    [
        Call::Offer(record),
        Call::Confirm { id: 1, number: 1 },
        Call::Work { class: 3 },
        Call::Read { class: 3, cell: 4 },
        Call::Look { id: 1 },
        Call::Query { mask: 1 },
    ]
}

/// A site and its cells after a run at a load and a query.
fn held_at(load: usize, seed: u64) -> Held {
    let script = Script::new(LOADS[load], seed, LEAD);
    let mut site = Plain::fresh();
    for call in script.filling.iter().chain(&script.calls) {
        let _ = site.take(call);
    }
    let _ = site.take(&Call::Query { mask: OPEN });
    site.0
}

/// Makes a call on both sides; what both answer and leave.
fn both(held: &Held, call: &Call) -> (Answered, Held) {
    let (mut archive, mut plain) = (Archive(held.clone()), Plain(held.clone()));
    let (theirs, ours) = (archive.take(call), plain.take(call));
    assert_eq!(theirs, ours, "{call:?}");
    assert!(archive.0 == plain.0, "{call:?} leaves different sites or cells");
    (ours, plain.0)
}

/// Both sides refuse every call alike and touch nothing.
fn refused_untouched(held: &Held, refusal: Refusal) {
    for call in calls() {
        let (answer, left) = both(held, &call);
        assert_eq!(answer, Err(refusal), "{call:?}");
        assert!(left == *held, "{call:?} touches what it refuses");
    }
}

/// Spoils a site so that it is not sound.
type Spoil = fn(&mut Held);

/// The slot of the head of the first class whose head is a request.
fn head(site: &mut Site) -> &mut Slot {
    let headed = |&class: &usize| {
        site.lens[class] > 0 && usize::from(site.queue[CLASS_PLACES * class]) < SLOTS
    };
    let class = (0..CLASSES).find(headed).expect("a request is queued");
    &mut site.slots[usize::from(site.queue[CLASS_PLACES * class])]
}

/// An open query.
fn open_query(site: &mut Site) -> &mut Query {
    site.queries.iter_mut().find(|query| query.classes != 0).expect("a query is open")
}

/// The id of a waiting request.
fn waiting(site: &Site) -> u32 {
    let mut slots = site.slots.iter().filter(|slot| slot.id != 0);
    slots.find(|slot| slot.number == 0).expect("a request waits").id
}

/// A way to break each rule of a sound site.
const SPOILS: [(&str, Spoil); 33] = [
    ("a free slot is all zero", |held| held.site.slots[127].ops[6].amount = 1),
    ("a free slot was never put back", |held| held.site.slots[127].backs = 1),
    ("a class is below 16", |held| head(&mut held.site).class = 16),
    ("a request has operations", |held| head(&mut held.site).count = 0),
    ("a request has at most 7", |held| head(&mut held.site).count = 8),
    ("a code is 1 to 4", |held| head(&mut held.site).ops[0].code = 5),
    ("a cell is below 64", |held| head(&mut held.site).ops[0].cell = 64),
    ("no queue is longer than 136", |held| held.site.lens[0] = 137),
    ("a used slot stands in a queue", |held| held.site.lens[0] -= 1),
    ("no free slot stands in a queue", |held| held.site.queue[0] = 127),
    ("a place is a slot or a query", |held| held.site.queue[0] = 136),
    ("an entry belongs to an open query", |held| *open_query(&mut held.site) = Query::default()),
    ("an open query has its entries", |held| open_query(&mut held.site).classes = u16::MAX),
    ("no query began later than now", |held| open_query(&mut held.site).begun = u32::MAX),
    ("a free query is all zero", |held| held.site.queries[7].begun = 1),
    ("a slot stands once", |held| held.site.queue[1] = held.site.queue[0]),
    ("a slot stands in its class", |held| held.site.queue.swap(0, CLASS_PLACES)),
    ("places past the end are zero", |held| held.site.queue[PLACES - 1] = 1),
    ("the map agrees", |held| held.site.low ^= 1),
    ("the map agrees in its high word", |held| held.site.high ^= 1 << 63),
    ("a used slot has an id", |held| head(&mut held.site).id = 0),
    ("numbers lie within the count", |held| head(&mut held.site).number = u32::MAX),
    ("the counts agree", |held| held.site.commits += 1),
    ("commits are no more than confirmations", |held| held.site.commits = u32::MAX),
    ("put-backs are no more than confirmations", |held| head(&mut held.site).backs = 1 << 32),
    ("no more is done than there is", |held| head(&mut held.site).done = 8),
    ("a mark says what declined", |held| head(&mut held.site).mark ^= 1),
    ("kept ids are not 0", |held| held.site.kept[1] = 0),
    ("kept ids differ", |held| held.site.kept[1] = held.site.kept[2]),
    ("a waiting request's id is not kept", |held| held.site.kept[1] = waiting(&held.site)),
    ("unused places of kept ids are zero", |held| held.site.kept[0] = 7),
    ("a sum is that of the confirmed part", |held| held.site.sums[15] ^= 1),
    ("working cells follow from committed ones", |held| held.working[1_023] ^= 1),
];

#[test]
fn each_broken_rule_is_refused_with_2() {
    let sound = held_at(1, 5);
    for (rule, spoil) in SPOILS {
        let mut held = sound.clone();
        spoil(&mut held);
        assert!(held != sound, "{rule}: nothing is spoiled");
        refused_untouched(&held, Refusal::Unsound);
    }
}

#[test]
fn equal_ids_and_equal_numbers_are_refused_with_2() {
    let sound = held_at(2, 6);
    let used: Vec<usize> = (0..SLOTS).filter(|&at| sound.site.slots[at].id != 0).collect();
    let numbered: Vec<usize> = (0..SLOTS).filter(|&at| sound.site.slots[at].number != 0).collect();
    for pair in used.windows(2) {
        let mut held = sound.clone();
        held.site.slots[pair[0]].id = held.site.slots[pair[1]].id;
        refused_untouched(&held, Refusal::Unsound);
    }
    assert!(numbered.len() > 1);
    for pair in numbered.windows(2) {
        let mut held = sound.clone();
        held.site.slots[pair[0]].number = held.site.slots[pair[1]].number;
        refused_untouched(&held, Refusal::Unsound);
    }
}

#[test]
fn wrong_cells_are_refused_with_1() {
    for spoil in [
        (|held| held.committed.truncate(1_023)) as Spoil,
        |held| held.working.push(0),
        |held| held.working.clear(),
        |held| {
            held.committed.push(0);
            held.site.low ^= 1;
        },
    ] {
        let mut held = held_at(0, 7);
        spoil(&mut held);
        refused_untouched(&held, Refusal::WrongCells);
    }
}

/// Changes one field or cell, left to chance.
fn spoil_by_chance(random: &mut Random, held: &mut Held) {
    let (byte, number) = (random.byte() % 9, random.number() % 9);
    let slot = &mut held.site.slots[random.below(SLOTS)];
    match random.below(18) {
        0 => slot.id = number,
        1 => slot.class = byte,
        2 => slot.count = byte,
        3 => slot.number = number,
        4 => slot.done = byte,
        5 => slot.mark = byte % 2,
        6 => slot.ops[random.below(MOST_OPS)].code = byte % 6,
        7 => slot.ops[random.below(MOST_OPS)].cell = byte * 10,
        8 => slot.ops[random.below(MOST_OPS)].second = byte,
        9 => slot.ops[random.below(MOST_OPS)].amount = number,
        10 => held.site.queue[random.below(PLACES)] = byte,
        11 => held.site.lens[random.below(CLASSES)] = byte,
        12 => slot.backs = held.site.confirmations.wrapping_add(number).wrapping_sub(4).into(),
        13 => held.site.queries[random.below(QUERIES)].classes ^= 1 << random.below(CLASSES),
        14 => held.site.queries[random.below(QUERIES)].begun = number,
        15 => held.site.sums[random.below(CLASSES)] = byte.into(),
        16 => held.site.confirmations = held.site.confirmations.wrapping_add(number),
        _ => held.working[random.below(1_024)] = number,
    }
}

#[test]
fn sites_spoiled_by_chance_are_judged_alike() {
    let mut random = Random::new(8);
    let sites: Vec<Held> = (0..LOADS.len()).map(|load| held_at(load, 9)).collect();
    let (mut sound, mut unsound) = (0, 0);
    for turn in 0..SPOILED {
        let mut held = sites[turn % sites.len()].clone();
        spoil_by_chance(&mut random, &mut held);
        let (answer, _) = both(&held, &calls()[turn % calls().len()]);
        let refused = answer == Err(Refusal::Unsound);
        *(if refused { &mut unsound } else { &mut sound }) += 1;
    }
    assert!(sound > 100 && unsound > 100, "{sound} sound, {unsound} not");
}

#[test]
fn streams_of_every_kind_are_answered_alike() {
    for (seed, (kind, name)) in (0..).zip(KINDS) {
        let (mut archive, mut plain) = (Archive::fresh(), Plain::fresh());
        let events = Stream::new(kind, seed, EVENTS).filter_map(|bytes| Event::decode(&bytes));
        for call in events.filter_map(|event| Call::of_event(&event)) {
            assert_eq!(archive.take(&call), plain.take(&call), "{name}: {call:?}");
        }
        assert!(archive.0 == plain.0, "{name}: the sites or cells differ");
    }
}
