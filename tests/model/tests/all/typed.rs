//! Typed lines and the events they make.

use crate::help::{add, need, program, put, request, shift};
use model::event::{Event, CONFIRM, OFFER, READ, WORK};
use model::record::{write, Request};
use model::typed::{event, events};

/// The offer of a request.
fn offer(request: &Request) -> Option<Event> {
    Some(Event { record: write(request), ..Event::blank(OFFER) })
}

#[test]
fn each_line_makes_its_event() {
    let all = [put(0, 100), add(1, 5), need(2, 6), shift(3, 4, 7)];
    let text = "offer 7 3 put 0 100 add 1 5 need 2 6 move 3 4 7";
    assert_eq!(event(text), Ok(offer(&request(7, 3, &all))));
    let mut confirm = Event { number: 2, ..Event::blank(CONFIRM) };
    confirm.record[..4].copy_from_slice(&[4, 3, 2, 1]);
    assert_eq!(event("confirm 16909060 2"), Ok(Some(confirm)));
    assert_eq!(event("work 3"), Ok(Some(Event { class: 3, ..Event::blank(WORK) })));
    assert_eq!(event("read 3 9"), Ok(Some(Event { class: 3, cell: 9, ..Event::blank(READ) })));
}

#[test]
fn blank_lines_and_remarks_are_skipped() {
    for line in ["", "   ", "\t", "#", "# work 3", "#work 3", "  # indented"] {
        assert_eq!(event(line), Ok(None), "{line:?}");
    }
    assert_eq!(events("\n# none\n\nwork 1\r\n\nwork 2").map(|made| made.len()), Ok(2));
}

#[test]
fn wrong_things_that_fit_the_fields_are_taken() {
    assert_eq!(event("offer 0 16"), Ok(offer(&request(0, 16, &[]))));
    let ops = [put(64, 0), shift(255, 255, u32::MAX)];
    let text = "offer 4294967295 255 put 64 0 move 255 255 4294967295";
    assert_eq!(event(text), Ok(offer(&request(u32::MAX, 255, &ops))));
    assert_eq!(event("work 255"), Ok(Some(Event { class: 255, ..Event::blank(WORK) })));
    assert!(event("read 16 64").is_ok());
    assert!(event("confirm 0 0").is_ok());
    let seven = format!("offer 1 0{}", " put 0 1".repeat(7));
    assert!(event(&seven).is_ok());
}

#[test]
fn bad_lines_are_errors() {
    let eight = format!("offer 1 0{}", " put 0 1".repeat(8));
    let bad = [
        "offer",
        "offer 7",
        "offer 4294967296 3",
        "offer 7 256",
        "offer 7 3 put",
        "offer 7 3 put 0",
        "offer 7 3 put 256 1",
        "offer 7 3 put 0 4294967296",
        "offer 7 3 take 0 1",
        "offer 7 3 move 0 1",
        "offer 7 3 move 0 256 1",
        "offer 7 3 put 0 1 2",
        "confirm 7",
        "confirm 7 4294967296",
        "confirm 7 2 1",
        "work",
        "work 256",
        "work -1",
        "work +1",
        "work 1 1",
        "work x",
        "read 3",
        "read 3 256",
        "read 3 0 0",
        "look 7",
        "WORK 3",
        &eight,
    ];
    for line in bad {
        assert!(event(line).is_err(), "{line:?}");
    }
}

#[test]
fn bad_lines_are_reported_with_their_numbers() {
    let ran = program(&["events"], b"work 1\n# fine\nwork 256\n\nwalk\nread 0 0\n");
    assert_eq!(ran.status.code(), Some(1));
    assert!(ran.stdout.is_empty());
    let report = String::from_utf8(ran.stderr).unwrap();
    let lines: Vec<&str> = report.lines().collect();
    assert_eq!(lines.len(), 2, "{report}");
    assert!(lines[0].starts_with("line 3: ") && lines[1].starts_with("line 5: "), "{report}");
}
