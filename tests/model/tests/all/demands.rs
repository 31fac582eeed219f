//! What is demanded of a site from a fresh start, over traffic of all kinds.

use crate::help::{add, confirm, offer, put, work};
use crate::ledger::Ledger;
use model::answer::Answer;
use model::event::{Event, Run};
use model::site::Site;
use model::stream::{Kind, Stream, KINDS};

/// Streams of each kind.
const SEEDS: u64 = 6;
/// Events of each stream.
const LENGTH: u64 = 3_000;

/// Runs a stream with books kept beside it.
fn keep_books(kind: Kind, seed: u64, length: u64) -> Ledger {
    let mut run = Run::fresh();
    let mut ledger = Ledger::fresh();
    for bytes in Stream::new(kind, seed, length) {
        let answer = run.take(&bytes);
        if let Some(event) = Event::decode(&bytes) {
            ledger.enter(&event, &answer, &run.site);
        }
    }
    ledger.check_from_the_start(&run.site);
    ledger
}

/// Committed cells are those of the first confirmed requests; promised commits come when due.
#[test]
fn the_books_agree_over_all_kinds() {
    for (kind, _) in KINDS {
        for seed in 0..SEEDS {
            keep_books(kind, seed, LENGTH);
        }
    }
}

#[test]
fn needs_and_moves_both_pass_and_decline_often() {
    let outcomes = keep_books(Kind::Sensible, 1, 20_000).outcomes;
    assert!(outcomes.need_passed > 300, "{outcomes:?}");
    assert!(outcomes.need_declined > 300, "{outcomes:?}");
    assert!(outcomes.move_passed > 300, "{outcomes:?}");
    assert!(outcomes.move_short > 300, "{outcomes:?}");
    assert!(outcomes.move_overfull > 20, "{outcomes:?}");
}

/// No other call adds to W or puts a confirmed request back, with many confirmed at once.
#[test]
fn a_promise_holds_through_all_other_calls() {
    let mut site = Site::fresh();
    for id in 1..=6 {
        offer(&mut site, id, 3, &[add(0, 1), put(1, id), add(2, id)]);
    }
    work(&mut site, 3, 2);
    assert_eq!(confirm(&mut site, 5), Answer::Waiting { id: 5, w: 3, put_back: 1 });
    assert_eq!(confirm(&mut site, 2), Answer::Waiting { id: 2, w: 6, put_back: 0 });
    site.work(3);
    for id in [6, 1, 3, 4] {
        confirm(&mut site, id);
        offer(&mut site, id + 10, 3, &[put(0, 0)]);
        site.read(3, 0);
        site.work(4);
        let left = [2, 5].map(|w| Answer::ToDo { w, backs: 0 });
        assert_eq!([site.look(5), site.look(2)], left);
    }
    let answer = Answer::Committed { id: 5, number: 1, mark: 0, slot: 4, backs: 0 };
    assert_eq!(work(&mut site, 3, 2), answer);
    let answer = Answer::Committed { id: 2, number: 2, mark: 0, slot: 1, backs: 0 };
    assert_eq!(work(&mut site, 3, 3), answer);
}
