//! What a call answers, and why it refuses.

use crate::raw::{self, CELLS, NUMBERS, Numbers};
use std::error::Error;
use std::fmt;

/// An answer not given yet: no call writes such numbers, so that one left out is noticed.
pub const NO_ANSWER: Numbers = [u64::MAX; NUMBERS];

/// The cells of an entry where none is read.
pub const NO_CELLS: [u32; CELLS] = [0; CELLS];

/// What a call answers when it acts.
#[derive(Clone, Copy, Debug, PartialEq, Eq)]
#[non_exhaustive]
pub enum Answer {
    /// The request was taken, at a place of its class queue (1 is the head) and in a slot.
    Queued { id: u32, class: u32, place: u32, slot: u32 },
    /// The head did an operation and has more to do.
    Stepped { id: u32, done: u32 },
    /// The waiting head did its last operation and waits for its number.
    Executed { id: u32 },
    /// The request committed, and its slot is free; the mark is the place of the first operation
    /// that declined, 1 to 7, or 0; it was put back so often since its offer.
    Committed { id: u32, number: u32, mark: u32, slot: u32, backs: u64 },
    /// The request is confirmed and commits at the w-th accepted work call for its class; a head
    /// was put back, or none (0).
    Waiting { id: u32, w: u32, put_back: u32 },
    /// The committed cell.
    Value(u32),
    /// The request is confirmed and commits at the w-th accepted work call for its class; it was put
    /// back so often.
    ToDo { w: u32, backs: u64 },
    /// The request is queued and not confirmed; it was put back so often.
    Unconfirmed { backs: u64 },
    /// The site is fresh.
    Started,
    /// The query was begun, at a place from 1 to 8.
    Begun { place: u32 },
    /// An entry of the query at a place was read: the committed cells of a class after the
    /// definitive numbers taken before the query began.
    Entry { place: u32, class: u32, cells: [u32; CELLS] },
}

/// Why a call did not act: the table of document 01, under its numbers.
#[derive(Clone, Copy, Debug, PartialEq, Eq, Hash)]
#[non_exhaustive]
#[repr(u8)]
pub enum Refusal {
    WrongCells = 1,
    Unsound = 2,
    BadRecord = 3,
    IdQueued = 4,
    SiteFull = 5,
    NumbersUsedUp = 6,
    WrongNumber = 7,
    IdNotQueued = 8,
    ConfirmedAlready = 9,
    NoSuchClass = 10,
    NothingToDo = 11,
    NoSuchCell = 12,
    IdKept = 14,
    EmptyMask = 17,
    QueriesOpen = 18,
    QueriesUsedUp = 24,
}

/// Every refusal and what it means.
const MEANINGS: [(Refusal, &str); 16] = [
    (Refusal::WrongCells, "a run of cells is not 1,024 long"),
    (Refusal::Unsound, "the site is not sound"),
    (Refusal::BadRecord, "the record is not 64 bytes or breaks a rule"),
    (Refusal::IdQueued, "the id is queued"),
    (Refusal::SiteFull, "128 requests are queued"),
    (Refusal::NumbersUsedUp, "4,294,967,295 confirmations were taken"),
    (Refusal::WrongNumber, "the number is not the count of confirmations plus 1"),
    (Refusal::IdNotQueued, "the id is not queued"),
    (Refusal::ConfirmedAlready, "the request is confirmed already"),
    (Refusal::NoSuchClass, "the class is above 15"),
    (Refusal::NothingToDo, "the queue is empty, or its head is executed"),
    (Refusal::NoSuchCell, "the cell is above 63"),
    (Refusal::IdKept, "the id is among the last 256 confirmed"),
    (Refusal::EmptyMask, "the mask names no class"),
    (Refusal::QueriesOpen, "8 queries are open"),
    (Refusal::QueriesUsedUp, "4,294,967,295 queries were begun"),
];

impl Refusal {
    /// Its number in document 01.
    pub fn number(self) -> u8 {
        self as u8
    }

    /// The refusal with a number; none if document 01 has no such refusal of a call.
    pub fn numbered(number: u64) -> Option<Refusal> {
        let mut known = MEANINGS.iter().map(|(refusal, _)| *refusal);
        known.find(|refusal| u64::from(refusal.number()) == number)
    }

    /// What it means, in words.
    pub fn meaning(self) -> &'static str {
        let row = MEANINGS.iter().find(|(refusal, _)| *refusal == self);
        row.expect("every refusal has a meaning").1
    }
}

impl fmt::Display for Refusal {
    /// Its number and what it means.
    fn fmt(&self, out: &mut fmt::Formatter) -> fmt::Result {
        write!(out, "refused {}: {}", self.number(), self.meaning())
    }
}

impl Error for Refusal {}

/// The answer or the refusal that six numbers say, with the cells of an entry that was read; panics
/// at numbers that no answer has.
pub fn answered(numbers: &Numbers, cells: &[u32; CELLS]) -> Result<Answer, Refusal> {
    Ok(match *numbers {
        [raw::QUEUED, id, class, place, slot, 0] => Answer::Queued {
            id: word(id),
            class: word(class),
            place: word(place),
            slot: word(slot),
        },
        [raw::STEPPED, id, done, 0, 0, 0] => Answer::Stepped { id: word(id), done: word(done) },
        [raw::EXECUTED, id, 0, 0, 0, 0] => Answer::Executed { id: word(id) },
        [raw::COMMITTED, id, number, mark, slot, backs] => Answer::Committed {
            id: word(id),
            number: word(number),
            mark: word(mark),
            slot: word(slot),
            backs,
        },
        [raw::WAITING, id, w, put_back, 0, 0] => {
            Answer::Waiting { id: word(id), w: word(w), put_back: word(put_back) }
        }
        [raw::VALUE, cell, 0, 0, 0, 0] => Answer::Value(word(cell)),
        [raw::TO_DO, w, backs, 0, 0, 0] => Answer::ToDo { w: word(w), backs },
        [raw::UNCONFIRMED, backs, 0, 0, 0, 0] => Answer::Unconfirmed { backs },
        [raw::STARTED, 0, 0, 0, 0, 0] => Answer::Started,
        [raw::BEGUN, place, 0, 0, 0, 0] => Answer::Begun { place: word(place) },
        [raw::ENTRY, place, class, 0, 0, 0] => {
            Answer::Entry { place: word(place), class: word(class), cells: *cells }
        }
        [raw::REFUSED, number, 0, 0, 0, 0] => return Err(refusal(number)),
        _ => panic!("{numbers:?} is no answer of a site"),
    })
}

/// A number of an answer that is no count of put-backs: it has 32 bits.
fn word(number: u64) -> u32 {
    u32::try_from(number).unwrap_or_else(|_| panic!("{number} is in no answer of a site"))
}

/// The refusal with a number that the archive gave.
fn refusal(number: u64) -> Refusal {
    Refusal::numbered(number).unwrap_or_else(|| panic!("the unknown refusal {number}"))
}
