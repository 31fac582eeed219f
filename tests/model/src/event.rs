//! The driving program: 72-byte events in, one line of text out for each.

use crate::answer::Answer;
use crate::record::{number_at, RECORD_BYTES};
use crate::site::Site;
use std::io::{self, Read, Write};

/// Bytes in an event.
pub const EVENT_BYTES: usize = 72;
/// Where the 4-byte number starts in an event.
const NUMBER_AT: usize = 4;
/// Where the record starts in an event.
const RECORD_AT: usize = 8;

/// The kind of an offer.
pub const OFFER: u8 = 1;
/// The kind of a confirm.
pub const CONFIRM: u8 = 2;
/// The kind of a work call.
pub const WORK: u8 = 3;
/// The kind of a read.
pub const READ: u8 = 4;

/// An event's kind is unknown, or the last event is short.
pub const BAD_EVENT: u8 = 13;

/// One event, field by field.
#[derive(Clone, Copy, Debug, PartialEq, Eq)]
pub struct Event {
    /// What is to be done.
    pub kind: u8,
    /// The class, for work and read.
    pub class: u8,
    /// The cell, for read.
    pub cell: u8,
    /// The byte that nothing uses.
    pub unused: u8,
    /// The definitive number, for confirm.
    pub number: u32,
    /// The record, for offer; its first four bytes are the id for confirm.
    pub record: [u8; RECORD_BYTES],
}

impl Event {
    /// An event of a kind with all other fields zero.
    pub fn blank(kind: u8) -> Event {
        Event { kind, class: 0, cell: 0, unused: 0, number: 0, record: [0; RECORD_BYTES] }
    }

    /// The event as its 72 bytes.
    pub fn encode(&self) -> [u8; EVENT_BYTES] {
        let mut bytes = [0; EVENT_BYTES];
        bytes[..NUMBER_AT].copy_from_slice(&[self.kind, self.class, self.cell, self.unused]);
        bytes[NUMBER_AT..RECORD_AT].copy_from_slice(&self.number.to_le_bytes());
        bytes[RECORD_AT..].copy_from_slice(&self.record);
        bytes
    }

    /// The event that 72 bytes make; none if there are more or fewer.
    pub fn decode(bytes: &[u8]) -> Option<Event> {
        let bytes: &[u8; EVENT_BYTES] = bytes.try_into().ok()?;
        let [kind, class, cell, unused] = [bytes[0], bytes[1], bytes[2], bytes[3]];
        let number = number_at(bytes, NUMBER_AT);
        let record = bytes[RECORD_AT..].try_into().ok()?;
        Some(Event { kind, class, cell, unused, number, record })
    }

    /// What the site answers to this event.
    pub fn act(&self, site: &mut Site) -> Answer {
        match self.kind {
            OFFER => site.offer(&self.record),
            CONFIRM => site.confirm(number_at(&self.record, 0), self.number),
            WORK => site.work(self.class),
            READ => site.read(self.class, self.cell),
            _ => Answer::Refused(BAD_EVENT),
        }
    }
}

/// A run in progress: the site and the place of the last event.
#[derive(Clone, Debug)]
pub struct Run {
    /// The site the events act on.
    pub site: Site,
    /// The place of the last event in the input; 0 before the first.
    pub place: u64,
}

impl Run {
    /// A run that starts from a fresh site.
    pub fn fresh() -> Run {
        Run { site: Site::fresh(), place: 0 }
    }

    /// Takes the bytes of the next event, fewer than 72 if the input ends there.
    pub fn take(&mut self, bytes: &[u8]) -> Answer {
        self.place += 1;
        match Event::decode(bytes) {
            Some(event) => event.act(&mut self.site),
            None => Answer::Refused(BAD_EVENT),
        }
    }
}

/// The seven words of the lines.
pub const WORDS: [&str; 7] =
    ["queued", "stepped", "executed", "committed", "waiting", "value", "refused"];

/// The word of an answer, by its index in the words.
pub fn word_of(answer: &Answer) -> usize {
    match answer {
        Answer::Queued { .. } => 0,
        Answer::Stepped { .. } => 1,
        Answer::Executed { .. } => 2,
        Answer::Committed { .. } => 3,
        Answer::Waiting { .. } => 4,
        Answer::Value(_) => 5,
        Answer::Refused(_) => 6,
        Answer::ToDo { .. } | Answer::Unconfirmed { .. } => unreachable!("look has no event"),
        Answer::Begun { .. } | Answer::Read { .. } => unreachable!("a query has no event"),
    }
}

/// The line of an event: its place, a word, numbers, a newline.
pub fn line(place: u64, answer: &Answer) -> String {
    let word = WORDS[word_of(answer)];
    let numbers = match *answer {
        Answer::Queued { id, class, place, slot } => format!("{id} {class} {place} {slot}"),
        Answer::Stepped { id, done } => format!("{id} {done}"),
        Answer::Executed { id } => id.to_string(),
        Answer::Committed { id, number, mark, slot, backs } => {
            format!("{id} {number} {mark} {slot} {backs}")
        }
        Answer::Waiting { id, w, put_back } => format!("{id} {w} {put_back}"),
        Answer::Value(cell) => cell.to_string(),
        Answer::Refused(number) => number.to_string(),
        Answer::ToDo { .. } | Answer::Unconfirmed { .. } => unreachable!("look has no event"),
        Answer::Begun { .. } | Answer::Read { .. } => unreachable!("a query has no event"),
    };
    format!("{place} {word} {numbers}\n")
}

/// Runs all events of an input held in memory.
pub fn run(input: &[u8], out: &mut impl Write) -> io::Result<()> {
    run_from(input, out, false)
}

/// Runs all events of an input as it comes in; the site is checked before each if that is asked for.
pub fn run_from(mut input: impl Read, out: &mut impl Write, checked: bool) -> io::Result<()> {
    let mut run = Run::fresh();
    let mut bytes = [0; EVENT_BYTES];
    loop {
        let filled = fill(&mut input, &mut bytes)?;
        if filled == 0 {
            return Ok(());
        }
        if checked {
            run.site.check();
        }
        let answer = run.take(&bytes[..filled]);
        out.write_all(line(run.place, &answer).as_bytes())?;
        if filled < EVENT_BYTES {
            return Ok(());
        }
    }
}

/// Reads until the bytes are full or the input ends; how many were read.
fn fill(input: &mut impl Read, bytes: &mut [u8]) -> io::Result<usize> {
    let mut filled = 0;
    while filled < bytes.len() {
        match input.read(&mut bytes[filled..]) {
            Ok(0) => break,
            Ok(count) => filled += count,
            Err(problem) if problem.kind() == io::ErrorKind::Interrupted => {}
            Err(problem) => return Err(problem),
        }
    }
    Ok(filled)
}
