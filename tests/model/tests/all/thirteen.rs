//! The thirteen events and their listing.

use crate::help::{add, program, put, request};
use model::event::{run, Event, CONFIRM, EVENT_BYTES, OFFER, READ, WORK};
use model::record::write;
use model::typed;

/// The thirteen events as typed lines.
const TYPED: &str = include_str!("../../examples/thirteen.txt");

/// What they print.
const LISTING: &str = "\
1 queued 7 3 1 0
2 queued 9 3 2 1
3 stepped 7 1
4 waiting 9 1 7
5 committed 9 1 0 1 0
6 value 4294967295
7 stepped 7 1
8 executed 7
9 value 0
10 refused 7
11 committed 7 2 0 0 1
12 value 100
13 refused 11
";

/// An event in class 3.
fn event(kind: u8, cell: u8) -> Event {
    Event { class: 3, cell, ..Event::blank(kind) }
}

/// A confirm of an id under a number.
fn confirm(id: u8, number: u32) -> Event {
    let mut event = Event { number, ..Event::blank(CONFIRM) };
    event.record[0] = id;
    event
}

/// The thirteen events as bytes.
fn bytes() -> Vec<u8> {
    let seven = write(&request(7, 3, &[put(0, 100), add(1, 5)]));
    let nine = write(&request(9, 3, &[add(0, 4_294_967_295)]));
    let events = [
        Event { record: seven, ..Event::blank(OFFER) },
        Event { record: nine, ..Event::blank(OFFER) },
        event(WORK, 0),
        confirm(9, 1),
        event(WORK, 0),
        event(READ, 0),
        event(WORK, 0),
        event(WORK, 0),
        event(READ, 1),
        confirm(7, 3),
        confirm(7, 2),
        event(READ, 0),
        event(WORK, 0),
    ];
    events.iter().flat_map(Event::encode).collect()
}

#[test]
fn the_first_event_has_these_bytes() {
    let mut expected = [0; EVENT_BYTES];
    let start = [
        1, 0, 0, 0, 0, 0, 0, 0, // kind, class, cell, unused, number
        7, 0, 0, 0, 3, 2, 0, 0, // id, class, number of operations, zero
        1, 0, 0, 0, 100, 0, 0, 0, // put
        2, 1, 0, 0, 5, 0, 0, 0, // add
    ];
    expected[..start.len()].copy_from_slice(&start);
    assert_eq!(bytes()[..EVENT_BYTES], expected);
}

#[test]
fn other_events_have_these_bytes() {
    let all = bytes();
    let at = |place: usize| &all[(place - 1) * EVENT_BYTES..place * EVENT_BYTES];
    assert_eq!(at(2)[8..24], [9, 0, 0, 0, 3, 1, 0, 0, 2, 0, 0, 0, 255, 255, 255, 255]);
    assert_eq!(at(3)[..12], [3, 3, 0, 0, 0, 0, 0, 0, 0, 0, 0, 0]);
    assert_eq!(at(4)[..12], [2, 0, 0, 0, 1, 0, 0, 0, 9, 0, 0, 0]);
    assert_eq!(at(9)[..12], [4, 3, 1, 0, 0, 0, 0, 0, 0, 0, 0, 0]);
    assert_eq!(at(10)[..12], [2, 0, 0, 0, 3, 0, 0, 0, 7, 0, 0, 0]);
}

#[test]
fn the_listing_is_printed_to_the_letter() {
    let mut out = Vec::new();
    run(&bytes(), &mut out).unwrap();
    assert_eq!(String::from_utf8(out).unwrap(), LISTING);
}

#[test]
fn the_typed_lines_make_the_thirteen_events() {
    let events = typed::events(TYPED).unwrap();
    let made: Vec<u8> = events.iter().flat_map(Event::encode).collect();
    assert_eq!(made, bytes());
}

#[test]
fn the_program_makes_and_runs_them_too() {
    let made = program(&["events"], TYPED.as_bytes());
    assert!(made.status.success());
    assert_eq!(made.stdout, bytes());
    let ran = program(&["run"], &made.stdout);
    assert!(ran.status.success());
    assert_eq!(String::from_utf8(ran.stdout).unwrap(), LISTING);
}
