//! The seven calls: made by the archive, and what they must do by the rules of the build.

use crate::plain::{from_plain, given, to_plain};
use crate::subject::Subject;
use model::answer::Answer as Plain;
use model::site::Site as PlainSite;
use shpendorak::{Answer, Refusal, Site};

/// A call and its arguments.
#[derive(Clone, Debug, PartialEq, Eq)]
pub enum Call {
    Fresh,
    Offer { booking: Vec<u8> },
    Confirm { id: u64, number: u64 },
    Work { class: u64 },
    Read { class: u64, cell: u64 },
    Look { id: u64 },
    Query { mask: u16 },
}

/// The names of the calls, in their order above.
pub const NAMES: [&str; 7] = ["fresh", "offer", "confirm", "work", "read", "look", "query"];

/// What a call must find in its subject.
#[derive(Clone, Copy, Debug, PartialEq, Eq)]
pub enum State {
    /// A run of cells is not 1,024 long.
    WrongCells,
    /// A sound rule is broken.
    Unsound,
    /// The site is sound with its cells.
    Sound,
}

/// What a call answers, and what it leaves.
#[derive(Clone, Debug, PartialEq, Eq)]
pub struct Outcome {
    /// The answer, or why it refuses.
    pub answer: Result<Answer, Refusal>,
    /// The site handed back, and the cells.
    pub after: Subject,
}

impl Call {
    /// The place of the call's name.
    pub fn kind(&self) -> usize {
        match self {
            Call::Fresh => 0,
            Call::Offer { .. } => 1,
            Call::Confirm { .. } => 2,
            Call::Work { .. } => 3,
            Call::Read { .. } => 4,
            Call::Look { .. } => 5,
            Call::Query { .. } => 6,
        }
    }

    /// Makes the call by the library, as its users do.
    pub fn made(&self, before: &Subject) -> Outcome {
        let mut after = before.clone();
        let Subject { site, committed, working } = &mut after;
        let answer = match self {
            Call::Fresh => {
                let started = Site::fresh(committed, working);
                *site = started.as_ref().map_or(Subject::empty().site, |fresh| *fresh);
                started.map(|_| Answer::Started)
            }
            Call::Offer { booking } => site.offer(committed, working, booking),
            Call::Confirm { id, number } => site.confirm(committed, working, *id, *number),
            Call::Work { class } => site.work(committed, working, *class),
            Call::Read { class, cell } => site.read(committed, working, *class, *cell),
            Call::Look { id } => site.look(committed, working, *id),
            Call::Query { mask } => site.query(committed, working, *mask),
        };
        Outcome { answer, after }
    }

    /// What the call must answer and leave.
    pub fn due(&self, before: &Subject, state: State) -> Outcome {
        match (state, self) {
            (State::WrongCells, Call::Fresh) => {
                let site = Subject::empty().site;
                refused(Refusal::WrongCells, Subject { site, ..before.clone() })
            }
            (State::WrongCells, _) => refused(Refusal::WrongCells, before.clone()),
            (_, Call::Fresh) => Outcome { answer: Ok(Answer::Started), after: Subject::empty() },
            (State::Unsound, _) => refused(Refusal::Unsound, before.clone()),
            (State::Sound, _) => {
                let mut plain = to_plain(before);
                let answer = given(self.on(&mut plain));
                Outcome { answer, after: from_plain(&plain) }
            }
        }
    }

    /// Makes the call on the model; a number too wide for it becomes one that it refuses alike.
    pub fn on(&self, plain: &mut PlainSite) -> Plain {
        let narrow = |wide: u64| u32::try_from(wide).unwrap_or(NEITHER_ID_NOR_NUMBER);
        let byte = |wide: u64| u8::try_from(wide).unwrap_or(NEITHER_CLASS_NOR_CELL);
        match self {
            Call::Fresh => unreachable!("fresh takes no site"),
            Call::Offer { booking } => plain.offer(booking),
            Call::Confirm { id, number } => plain.confirm(narrow(*id), narrow(*number)),
            Call::Work { class } => plain.work(byte(*class)),
            Call::Read { class, cell } => plain.read(byte(*class), byte(*cell)),
            Call::Look { id } => plain.look(narrow(*id)),
            Call::Query { mask } => plain.query(*mask),
        }
    }
}

/// No request has this id, and no confirmation this number.
const NEITHER_ID_NOR_NUMBER: u32 = 0;
/// There is no such class, and no such cell.
const NEITHER_CLASS_NOR_CELL: u8 = u8::MAX;

/// A refusal that leaves a subject.
fn refused(refusal: Refusal, after: Subject) -> Outcome {
    Outcome { answer: Err(refusal), after }
}
