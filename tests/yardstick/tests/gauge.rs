//! The painted stack: calls made on it answer as elsewhere, and what they need is seen.

use shpendorak::Answer;
use yardstick::archive::Archive;
use yardstick::call::{Call, Held, RUN, Takes};
use yardstick::load::{LOADS, Script};
use yardstick::stack::{Asked, Gauge};

/// How many calls are made at each load.
const CALLS: usize = 500;
/// More bytes than any call may need.
const PLENTY: usize = 200_000;

#[test]
fn calls_on_the_painted_stack_answer_as_elsewhere() {
    let mut gauge = Gauge::default();
    for load in LOADS {
        let script = Script::new(load, 3, CALLS);
        let mut archive = Archive::fresh();
        let mut held = archive.held().clone();
        for &call in script.filling.iter().chain(&script.calls) {
            let (answer, bytes) = gauge.take(&mut held, &Asked::Call(call));
            assert_eq!(answer, archive.take(&call), "{call:?}");
            assert!(bytes > 0 && bytes < PLENTY, "{call:?} needs {bytes} bytes");
        }
        assert!(held == archive.0);
    }
}

#[test]
fn fresh_on_the_painted_stack_starts_a_site() {
    let mut held: Held = Archive::fresh().0;
    held.committed.fill(7);
    let (answer, _) = Gauge::default().take(&mut held, &Asked::Fresh);
    assert_eq!(answer, Ok(Answer::Started));
    assert_eq!(held.committed, [0; RUN]);
}

#[test]
fn the_same_call_needs_the_same_stack() {
    let mut gauge = Gauge::default();
    let held = Archive::fresh().0;
    let asked = Asked::Call(Call::Read { class: 0, cell: 0 });
    let (_, first) = gauge.take(&mut held.clone(), &asked);
    for _ in 0..4 {
        assert_eq!(gauge.take(&mut held.clone(), &asked).1, first);
    }
}
