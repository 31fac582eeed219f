//! The two calls: made by the archive, and what they must do by the model.

use model::text::{self, Refusal};
use shpendorak::raw::{self, LONGEST_TEXT, NUMBERS, Numbers, RECORD_BYTES};

/// The most bytes lent past the longest result.
pub const SPARE: usize = 8;
/// The most bytes that are lent.
pub const MOST_LENT: usize = LONGEST_TEXT + SPARE;
/// Bytes watched: those lent, and as many as a text behind them that nobody may write.
const WATCHED: usize = MOST_LENT + LONGEST_TEXT;
/// An answer that no call gives, so that a number not written is noticed.
const UNWRITTEN: Numbers = [u64::MAX; NUMBERS];

/// A call and its input.
#[derive(Clone, Debug, PartialEq, Eq)]
pub enum Call {
    /// Writes the text of a record.
    Write { booking: Vec<u8> },
    /// Reads a text into a record.
    Read { text: Vec<u8> },
}

/// What a call gives: the bytes that belong into the buffer, or why there are none.
pub type Given = Result<Vec<u8>, Refusal>;

/// What a call answers, and all watched bytes after it.
#[derive(Clone, Copy, Debug, PartialEq, Eq)]
pub struct Outcome {
    /// The six numbers.
    pub answer: Numbers,
    /// The lent buffer and what stands behind it.
    pub bytes: [u8; WATCHED],
}

/// What the watched bytes are before a call: no byte of a text, and each other than its neighbours.
const PATTERN: [u8; WATCHED] = {
    let mut bytes = [0; WATCHED];
    let mut place = 0;
    while place < WATCHED {
        bytes[place] = 0x80 | (place % 0x7D) as u8;
        place += 1;
    }
    bytes
};

impl Call {
    /// Makes the call by the archive, with so many bytes lent.
    pub fn made(&self, lent: usize) -> Outcome {
        let mut outcome = Outcome { answer: UNWRITTEN, bytes: PATTERN };
        let buffer = outcome.bytes.as_mut_ptr();
        let answer: *mut Numbers = &mut outcome.answer;
        assert!(lent <= MOST_LENT, "at most {MOST_LENT} bytes are lent");
        // SAFETY: the input is lent with its length, the buffer has the bytes lent and more.
        unsafe {
            match self {
                Call::Write { booking } => raw::shpendorak_write_text(
                    booking.as_ptr(),
                    booking.len(),
                    buffer,
                    lent,
                    answer,
                ),
                Call::Read { text } => {
                    raw::shpendorak_read_text(text.as_ptr(), text.len(), buffer, lent, answer)
                }
            }
        }
        outcome
    }

    /// What the call must give to a buffer that is long enough.
    pub fn given(&self) -> Given {
        match self {
            Call::Write { booking } => text::write_text(booking),
            Call::Read { text } => text::read_text(text).map(|booking| booking.to_vec()),
        }
    }

    /// The most bytes that a result of such a call has.
    pub fn longest(&self) -> usize {
        match self {
            Call::Write { .. } => LONGEST_TEXT,
            Call::Read { .. } => RECORD_BYTES,
        }
    }
}

/// What a call that gives this must answer and leave, with so many bytes lent.
pub fn due(given: &Given, lent: usize) -> Outcome {
    let mut bytes = PATTERN;
    let handed = match given {
        Ok(result) => text::hand_over(result, &mut bytes[..lent]),
        Err(refusal) => Err(*refusal),
    };
    Outcome { answer: numbers(handed), bytes }
}

/// The six numbers of an answer.
fn numbers(handed: Result<usize, Refusal>) -> Numbers {
    let [what, first, second] = match handed {
        Ok(length) => [raw::WRITTEN, length as u64, 0],
        Err(refusal @ Refusal::BadText { line }) => {
            [raw::REFUSED, refusal.number().into(), line as u64]
        }
        Err(refusal) => [raw::REFUSED, refusal.number().into(), 0],
    };
    [what, first, second, 0, 0, 0]
}
