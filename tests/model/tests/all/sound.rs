//! Every call leaves a sound site sound, and a broken site is noticed.

use crate::help::{add, confirm, need, offer, put, request, shift};
use model::answer::Answer;
use model::event::Run;
use model::site::Site;
use model::stream::{Kind, Stream, KINDS};

/// Streams of each kind.
const SEEDS: u64 = 4;
/// Events of each stream.
const LENGTH: u64 = 2_500;

#[test]
fn a_fresh_site_is_sound() {
    Site::fresh().check();
}

#[test]
fn every_call_leaves_the_site_sound_and_a_refusal_leaves_it_untouched() {
    for (kind, _) in KINDS {
        for seed in 100..100 + SEEDS {
            let mut run = Run::fresh();
            for bytes in Stream::new(kind, seed, LENGTH) {
                let before = run.site.clone();
                let answer = run.take(&bytes);
                run.site.check();
                assert!(!matches!(answer, Answer::Refused(_)) || run.site == before);
            }
        }
    }
}

/// A sound site that agrees with another in one class and has nothing in the others.
fn alone(site: &Site, class: usize) -> Site {
    let mut other = Site::fresh();
    other.classes[class] = site.classes[class].clone();
    let confirmed = other.entries().filter(|entry| entry.number.is_some()).count();
    other.confirmations = site.confirmations;
    other.commits = site.confirmations - confirmed as u32;
    other.kept = site.kept.clone();
    other.check();
    other
}

#[test]
fn work_and_read_depend_on_their_class_alone() {
    for seed in 0..20 {
        let mut run = Run::fresh();
        Stream::new(Kind::Full, seed, 600).for_each(|bytes| {
            run.take(&bytes);
        });
        for class in 0..16 {
            let (mut site, mut other) = (run.site.clone(), alone(&run.site, class));
            for cell in 0..64 {
                assert_eq!(site.work(class as u8), other.work(class as u8));
                assert_eq!(site.read(class as u8, cell), other.read(class as u8, cell));
                assert_eq!(site.classes[class], other.classes[class]);
            }
        }
    }
}

/// A sound site: 1 and 2 confirmed and 3 waiting in class 0, 4 declined and waiting in class 1.
fn sound() -> Site {
    let mut site = Site::fresh();
    for id in 1..=3 {
        offer(&mut site, id, 0, &[add(0, id), put(1, 7), shift(1, 2, 3)]);
    }
    offer(&mut site, 4, 1, &[put(5, 8), need(6, 1), put(5, 9)]);
    confirm(&mut site, 1);
    confirm(&mut site, 2);
    for class in [0, 0, 1, 1, 1] {
        site.work(class);
    }
    site.check();
    site
}

/// Asserts that a change to the sound site breaks a rule.
fn breaks(rule: &str, change: impl Fn(&mut Site)) {
    let mut site = sound();
    change(&mut site);
    assert_eq!(site.breach(), Some(rule));
}

#[test]
fn broken_records_are_noticed() {
    let rule = "each record is valid";
    breaks(rule, |site| site.classes[0].request_at(0).request.id = 0);
    breaks(rule, |site| site.classes[0].request_at(2).request.class = 16);
    breaks(rule, |site| site.classes[0].request_at(2).request.ops.clear());
    breaks(rule, |site| site.classes[0].request_at(2).request.ops = vec![put(0, 0); 8]);
    breaks(rule, |site| site.classes[0].request_at(2).request.ops[0] = add(64, 0));
    breaks(rule, |site| site.classes[0].request_at(2).request.ops[0] = shift(9, 9, 0));
    breaks(rule, |site| site.classes[0].request_at(2).request.ops[0] = shift(9, 64, 0));
}

#[test]
fn broken_queues_are_noticed() {
    breaks("there are 16 classes", |site| site.classes.truncate(15));
    let once = "every used slot stands exactly once";
    breaks(once, |site| site.classes[0].request_at(0).slot = 3);
    breaks(once, |site| site.classes[0].request_at(0).slot = 128);
    let own = "a slot stands in the queue of its class";
    breaks(own, |site| site.classes[0].request_at(2).request.class = 1);
    breaks("ids differ", |site| site.classes[1].request_at(0).request.id = 3);
    breaks("no queue is longer than 136", |site| {
        let last = site.classes[0].queue[2].clone();
        site.classes[0].queue.resize(137, last);
    });
}

#[test]
fn broken_numbers_and_counts_are_noticed() {
    let first = "the confirmed stand before the waiting";
    breaks(first, |site| site.classes[0].queue.swap(1, 2));
    breaks("confirmed numbers rise in a queue", |site| {
        site.classes[0].request_at(0).number = Some(2);
        site.classes[0].request_at(1).number = Some(1);
    });
    let differ = "confirmed numbers differ over the whole site";
    breaks(differ, |site| site.classes[1].request_at(0).number = Some(1));
    let within = "confirmed numbers lie between 1 and the count";
    breaks(within, |site| site.classes[0].request_at(0).number = Some(0));
    breaks(within, |site| site.classes[0].request_at(1).number = Some(3));
    let counts = "confirmations are commits plus confirmed requests queued";
    breaks(counts, |site| site.commits += 1);
    breaks(counts, |site| site.confirmations += 1);
    let backs = "none was put back more often than there were confirmations and queries";
    breaks(backs, |site| site.classes[0].request_at(2).backs = 3);
    breaks(backs, |site| site.classes[1].request_at(0).backs = u64::MAX);
}

#[test]
fn broken_heads_are_noticed() {
    breaks("none has more done than operations", |site| site.classes[1].request_at(0).done = 4);
    let only = "only a head has anything done";
    breaks(only, |site| site.classes[0].request_at(1).done = 1);
    breaks(only, |site| site.classes[0].request_at(2).mark = 1);
    breaks("a confirmed head is not executed", |site| site.classes[0].request_at(0).done = 3);
    let first = "the mark is the first that declined";
    breaks(first, |site| site.classes[0].request_at(0).mark = 1);
    for wrong in [0, 1, 3] {
        breaks(first, |site| site.classes[1].request_at(0).mark = wrong);
    }
    breaks(first, |site| site.classes[1].request_at(0).done = 1);
}

#[test]
fn wrong_working_cells_are_noticed() {
    let rule = "working cells follow the head";
    breaks(rule, |site| site.classes[0].working[63] += 1);
    breaks(rule, |site| site.classes[0].request_at(0).done = 1);
    breaks(rule, |site| site.classes[1].working[5] = 8);
    breaks(rule, |site| site.classes[15].working[0] = 1);
    breaks(rule, |site| site.classes[15].committed[0] = 1);
    breaks(rule, |site| {
        site.classes[0].request_at(0).request = request(1, 0, &[add(0, 1), put(1, 8), put(0, 0)]);
    });
}
