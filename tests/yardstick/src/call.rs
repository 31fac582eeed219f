//! One call with what it is given, and the two kinds of site that take it.

use crate::raw::{CLASSES, Site};
use model::event::{CONFIRM, Event, OFFER, READ, WORK};
use model::record::{CELLS, RECORD_BYTES, number_at};
use shpendorak::{Answer, Refusal};

/// What a call answers, or why it refuses.
pub type Answered = Result<Answer, Refusal>;

/// The cells of all classes, one class after another.
pub const RUN: usize = CLASSES * CELLS;

/// One call.
#[derive(Clone, Copy, Debug, PartialEq, Eq)]
pub enum Call {
    /// Offers a record.
    Offer([u8; RECORD_BYTES]),
    /// Confirms an id under a number.
    Confirm { id: u64, number: u64 },
    /// Has the head of a class do its next operation.
    Work { class: u64 },
    /// Reads a committed cell.
    Read { class: u64, cell: u64 },
    /// Looks how far an id is.
    Look { id: u64 },
    /// Begins a query over the classes of a mask.
    Query { mask: u16 },
}

impl Call {
    /// The call that an event of the model asks for; none where its kind is unknown.
    pub fn of_event(event: &Event) -> Option<Call> {
        let class = event.class.into();
        match event.kind {
            OFFER => Some(Call::Offer(event.record)),
            CONFIRM => {
                let id = number_at(&event.record, 0).into();
                Some(Call::Confirm { id, number: event.number.into() })
            }
            WORK => Some(Call::Work { class }),
            READ => Some(Call::Read { class, cell: event.cell.into() }),
            _ => None,
        }
    }
}

/// A site value with the two runs of cells that are lent to its calls.
#[derive(Clone, Debug, PartialEq, Eq)]
pub struct Held {
    /// The site value.
    pub site: Site,
    /// The committed cells.
    pub committed: Vec<u32>,
    /// The working cells.
    pub working: Vec<u32>,
}

/// What takes calls: the archive, or plain Rust.
pub trait Takes {
    /// A fresh site with its cells cleared.
    fn fresh() -> Self;
    /// Makes a call.
    fn take(&mut self, call: &Call) -> Answered;
    /// The site and cells as they are now.
    fn held(&mut self) -> &mut Held;
}
