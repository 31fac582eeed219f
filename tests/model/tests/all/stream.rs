//! The streams: fixed by their seed, of the right length, and of their kind.

use crate::help::program;
use model::answer::Answer;
use model::event::{Event, Run, EVENT_BYTES};
use model::site::SLOTS;
use model::stream::{kind_named, Kind, Stream, KINDS};

/// All bytes of a stream.
fn bytes(kind: Kind, seed: u64, length: u64) -> Vec<u8> {
    Stream::new(kind, seed, length).flatten().collect()
}

/// How many events of a stream have a feature.
fn share(kind: Kind, has: impl Fn(&Event) -> bool) -> usize {
    let events = Stream::new(kind, 5, 1_000).filter_map(|bytes| Event::decode(&bytes));
    events.filter(|event| has(event)).count()
}

#[test]
fn a_stream_is_fixed_by_kind_seed_and_length() {
    for (kind, name) in KINDS {
        assert_eq!(kind_named(name), Some(kind));
        let once = bytes(kind, 7, 400);
        assert_eq!(once, bytes(kind, 7, 400));
        assert_ne!(once, bytes(kind, 8, 400));
        assert_eq!(program(&["gen", name, "7", "400"], &[]).stdout, once);
    }
    assert_eq!(kind_named("none"), None);
}

#[test]
fn a_stream_has_so_many_events() {
    for (kind, _) in KINDS {
        for length in [0, 1, 2, 333] {
            assert_eq!(Stream::new(kind, 3, length).count() as u64, length);
            let bytes = bytes(kind, 3, length).len();
            assert_eq!(bytes.div_ceil(EVENT_BYTES) as u64, length);
            let cut = kind == Kind::Tails && length > 0;
            assert_eq!(!bytes.is_multiple_of(EVENT_BYTES), cut);
        }
    }
}

#[test]
fn short_tails_have_every_length() {
    let mut seen = [false; EVENT_BYTES];
    for seed in 0..2_000 {
        let tail = Stream::new(Kind::Tails, seed, 2).last().unwrap();
        seen[tail.len()] = true;
    }
    assert!(!seen[0] && seen[1..].iter().all(|seen| *seen));
}

#[test]
fn a_full_house_gets_full_and_stays_full() {
    for seed in 0..8 {
        let mut run = Run::fresh();
        let mut counts = Vec::new();
        for bytes in Stream::new(Kind::Full, seed, 2_000) {
            run.take(&bytes);
            counts.push(run.site.queued());
        }
        let full = counts[300..].iter().filter(|count| **count == SLOTS).count();
        assert!(counts[300..].iter().all(|count| *count >= SLOTS - 16), "seed {seed}");
        assert!(full > 850, "seed {seed}: {full}");
    }
}

#[test]
fn kinds_are_what_they_say() {
    assert!(share(Kind::Unknown, |event| !(1..=4).contains(&event.kind)) > 300);
    assert_eq!(share(Kind::Sensible, |event| !(1..=4).contains(&event.kind)), 0);
    assert!(share(Kind::Odd, |event| event.kind == 4 && event.class > 15) > 50);
    assert!(share(Kind::Odd, |event| event.kind == 4 && event.cell > 63) > 50);
    assert!(share(Kind::Numbers, |event| event.kind == 2) > 400);
    assert!(share(Kind::Damaged, |event| event.kind == 1) > 400);
    assert!(share(Kind::Random, |event| event.kind > 4) > 400);
}

#[test]
fn one_class_and_few_ids_keep_to_theirs() {
    let mut run = Run::fresh();
    for bytes in Stream::new(Kind::Single, 4, 1_000) {
        run.take(&bytes);
        assert!(run.site.classes.iter().filter(|class| !class.queue.is_empty()).count() <= 1);
    }
    let mut run = Run::fresh();
    for bytes in Stream::new(Kind::Ids, 4, 1_000) {
        run.take(&bytes);
        assert!(run.site.entries().all(|entry| entry.request.id % 0x0080_0903 == 0));
    }
    assert!(run.site.commits > 50);
}

#[test]
fn overtaken_requests_are_put_back_often() {
    let mut most = 0;
    for seed in 0..12 {
        let mut run = Run::fresh();
        let mut put_back = 0;
        for bytes in Stream::new(Kind::Overtaken, seed, 2_000) {
            match run.take(&bytes) {
                Answer::Waiting { put_back: id, .. } => put_back += usize::from(id != 0),
                Answer::Committed { backs, .. } => most = backs.max(most),
                _ => {}
            }
        }
        assert!(put_back > 300, "seed {seed}: {put_back}");
    }
    assert!(most > 255, "{most}");
}

#[test]
fn an_unknown_kind_of_stream_is_an_error() {
    let ran = program(&["gen", "none", "1", "1"], &[]);
    assert_eq!(ran.status.code(), Some(1));
    assert!(ran.stdout.is_empty());
    let ran = program(&["gen", "odd", "x", "1"], &[]);
    assert_eq!(ran.status.code(), Some(1));
}
