//! The queue places that confirm and look read behind the check, before and after each class has its sum, over the calls of each load.
//!
//! `places [CALLS]`: the walks of crates/site are counted on the sites that the calls meet. Confirm seeks the place of its request and that of the first
//! waiting one, and before it added W up over the queue; now W is the sum. Look added it up; now it seeks the end of the confirmed part by halves, takes
//! the sum if its request stands there, and else adds up.

use shpendorak::Answer;
use std::env;
use yardstick::call::{Call, Takes};
use yardstick::load::{LOADS, Load, Script};
use yardstick::plain::Plain;
use yardstick::plain::sound::{query_at, queue_of};
use yardstick::raw::Site;

/// How many calls are made at each load if no number is given.
const CALLS: usize = 100_000;
/// The seed of the calls.
const SEED: u64 = 1;

/// What the calls of one kind read to work out W: queue places before and after, and the most of one call.
#[derive(Default)]
struct Row {
    made: usize,
    before: usize,
    after: usize,
    most_before: usize,
    most_after: usize,
}

impl Row {
    /// Counts a call.
    fn count(&mut self, (before, after): (usize, usize)) {
        self.made += 1;
        self.before += before;
        self.after += after;
        self.most_before = self.most_before.max(before);
        self.most_after = self.most_after.max(after);
    }

    /// Prints what a call reads on the average, and at most.
    fn print(&self, load: Load, name: &str) {
        let each = |places: usize| places as f64 / self.made.max(1) as f64;
        println!(
            "{:<10}{name:<12}{:>8}{:>10.2}{:>10.2}{:>8}{:>8}",
            load.name,
            self.made,
            each(self.before),
            each(self.after),
            self.most_before,
            self.most_after
        );
    }
}

/// Whether a queue place names a request that waits.
fn waits(site: &Site, place: u8) -> bool {
    query_at(place).is_none() && site.slots[usize::from(place)].number == 0
}

/// The queue in which the request with an id stands, and its place there from 0.
fn stands(site: &Site, id: u64) -> (&[u8], usize) {
    let slot = site.slots.iter().position(|slot| u64::from(slot.id) == id).expect("it is queued");
    let queue = queue_of(site, site.slots[slot].class.into());
    (queue, queue.iter().position(|&place| usize::from(place) == slot).expect("it stands there"))
}

/// The places read by a search of the first waiting one by halves, as the library's `partition_point` makes it.
fn halves(site: &Site, queue: &[u8]) -> usize {
    let (mut base, mut size, mut reads) = (0, queue.len(), 0);
    while size > 1 {
        let half = size / 2;
        reads += 1;
        if !waits(site, queue[base + half]) {
            base += half;
        }
        size -= half;
    }
    reads + size
}

/// The queue places that a confirmation reads to work out W, before and after: its request has moved before the first waiting one.
fn confirm_reads(site: &Site, id: u64) -> (usize, usize) {
    let (queue, _) = stands(site, id);
    let to = queue.iter().position(|&place| waits(site, place)).expect("it waits itself");
    (to + 1, 0)
}

/// Whether the request with an id ends the confirmed part; and the queue places that a look at it reads, before and after.
fn look_reads(site: &Site, id: u64) -> (bool, (usize, usize)) {
    let (queue, at) = stands(site, id);
    let ends_part = queue.get(at + 1).is_none_or(|&place| waits(site, place));
    let sought = halves(site, queue) + 1;
    (ends_part, (at + 1, if ends_part { sought } else { sought + at + 1 }))
}

/// Makes the calls of a load and prints its rows.
fn measure(load: Load, calls: usize) {
    let script = Script::new(load, SEED, calls);
    let mut plain = Plain::fresh();
    for call in &script.filling {
        let _ = plain.take(call);
    }
    let (mut confirms, mut last, mut others) = (Row::default(), Row::default(), Row::default());
    for call in &script.calls {
        let site = plain.held().site;
        match (*call, plain.take(call)) {
            (Call::Confirm { id, .. }, Ok(Answer::Waiting { .. })) => {
                confirms.count(confirm_reads(&site, id));
            }
            (Call::Look { id }, Ok(Answer::ToDo { .. })) => {
                let (ends_part, reads) = look_reads(&site, id);
                if ends_part { &mut last } else { &mut others }.count(reads);
            }
            _ => {}
        }
    }
    confirms.print(load, "confirm");
    last.print(load, "look, last");
    others.print(load, "look, other");
}

/// Measures all loads.
fn main() {
    let given = env::args().nth(1).map(|word| word.parse().expect("a number of calls"));
    println!("queue places read to work out W: on the average, and most of a call");
    println!(
        "{:<10}{:<12}{:>8}{:>10}{:>10}{:>8}{:>8}",
        "load", "call", "made", "before", "after", "before", "after"
    );
    for load in LOADS {
        measure(load, given.unwrap_or(CALLS));
    }
}
