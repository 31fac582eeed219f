//! Events and the lines of the driving program.

use crate::help::{program, put, request};
use model::answer::Answer;
use model::event::*;
use model::record::write;
use model::stream::{Kind, Stream};
use std::io::Read;

/// The lines that an input gives.
fn lines(input: &[u8]) -> String {
    let mut out = Vec::new();
    run(input, &mut out).unwrap();
    String::from_utf8(out).unwrap()
}

/// An offer of an id.
fn offer(id: u32) -> Event {
    Event { record: write(&request(id, 0, &[put(0, 1)])), ..Event::blank(OFFER) }
}

/// Gives its bytes one at a time.
struct Drip<'a>(&'a [u8]);

impl Read for Drip<'_> {
    /// Reads at most one byte.
    fn read(&mut self, buffer: &mut [u8]) -> std::io::Result<usize> {
        let end = buffer.len().min(1);
        self.0.read(&mut buffer[..end])
    }
}

#[test]
fn events_are_read_back_as_written() {
    let mut event = offer(0x0102_0304);
    (event.class, event.cell, event.unused, event.number) = (1, 2, 3, 0x0807_0605);
    let bytes = event.encode();
    assert_eq!(bytes[..12], [1, 1, 2, 3, 5, 6, 7, 8, 4, 3, 2, 1]);
    assert_eq!(Event::decode(&bytes), Some(event));
    assert_eq!(Event::decode(&bytes[..71]), None);
}

#[test]
fn each_answer_has_its_line() {
    let answers = [
        (Answer::Queued { id: 7, class: 3, place: 128, slot: 127 }, "queued 7 3 128 127"),
        (Answer::Stepped { id: u32::MAX, done: 6 }, "stepped 4294967295 6"),
        (Answer::Executed { id: 5 }, "executed 5"),
        (
            Answer::Committed { id: 5, number: u32::MAX, mark: 7, slot: 0, backs: u64::MAX },
            "committed 5 4294967295 7 0 18446744073709551615",
        ),
        (Answer::Committed { id: 5, number: 1, mark: 0, slot: 9, backs: 2 }, "committed 5 1 0 9 2"),
        (Answer::Waiting { id: 5, w: 896, put_back: 0 }, "waiting 5 896 0"),
        (Answer::Value(u32::MAX), "value 4294967295"),
        (Answer::Refused(13), "refused 13"),
    ];
    for (answer, text) in answers {
        assert_eq!(line(1, &answer), format!("1 {text}\n"));
    }
}

#[test]
fn empty_input_prints_nothing() {
    assert_eq!(lines(&[]), "");
    let ran = program(&["run"], &[]);
    assert!(ran.status.success() && ran.stdout.is_empty());
}

#[test]
fn unknown_kinds_are_refused_and_the_run_goes_on() {
    for kind in (0..=255).filter(|kind| !(1..=4).contains(kind)) {
        let strange = Event { kind, ..offer(5) };
        let input = [strange.encode(), offer(5).encode()].concat();
        assert_eq!(lines(&input), "1 refused 13\n2 queued 5 0 1 0\n");
    }
}

#[test]
fn a_short_last_event_is_refused_and_ends_the_run() {
    let input = [offer(5).encode(), offer(6).encode()].concat();
    for cut in 1..EVENT_BYTES {
        let expected = "1 queued 5 0 1 0\n2 refused 13\n";
        assert_eq!(lines(&input[..EVENT_BYTES + cut]), expected);
        assert_eq!(lines(&input[..cut]), "1 refused 13\n");
    }
    assert_eq!(lines(&input), "1 queued 5 0 1 0\n2 queued 6 0 2 1\n");
    assert_eq!(lines(&input[..EVENT_BYTES]), "1 queued 5 0 1 0\n");
}

#[test]
fn fields_without_use_are_not_looked_at() {
    let full =
        Event { class: 255, cell: 255, unused: 255, number: u32::MAX, record: [255; 64], kind: 0 };
    let mut confirm = Event { kind: CONFIRM, number: 1, ..full };
    confirm.record[..4].copy_from_slice(&5u32.to_le_bytes());
    let events = [
        Event { kind: OFFER, record: offer(5).record, ..full },
        confirm,
        Event { kind: WORK, class: 0, ..full },
        Event { kind: READ, class: 0, cell: 0, ..full },
    ];
    let input: Vec<u8> = events.iter().flat_map(Event::encode).collect();
    assert_eq!(
        lines(&input),
        "1 queued 5 0 1 0\n2 waiting 5 1 0\n3 committed 5 1 0 0 0\n4 value 1\n"
    );
}

#[test]
fn the_class_of_an_offer_is_the_one_in_its_record() {
    let record = write(&request(5, 12, &[put(0, 1)]));
    let event = Event { class: 3, record, ..Event::blank(OFFER) };
    assert_eq!(lines(&event.encode()), "1 queued 5 12 1 0\n");
}

#[test]
fn the_place_counts_on_past_32_bits() {
    let mut run = Run::fresh();
    run.place = u64::from(u32::MAX) - 1;
    let texts = [(); 3].map(|()| {
        let answer = run.take(&Event::blank(READ).encode());
        line(run.place, &answer)
    });
    assert_eq!(texts, ["4294967295 value 0\n", "4294967296 value 0\n", "4294967297 value 0\n"]);
}

#[test]
fn input_that_drips_in_gives_the_same_lines() {
    let input: Vec<u8> = Stream::new(Kind::Tails, 8, 500).flatten().collect();
    let mut out = Vec::new();
    run_from(Drip(&input), &mut out, true).unwrap();
    assert_eq!(String::from_utf8(out).unwrap(), lines(&input));
    assert_eq!(program(&["run"], &input).stdout, lines(&input).into_bytes());
}
