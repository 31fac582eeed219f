//! The text form of a request record, for people.
//!
//! A text is a line with id and class, then a line for each operation with its name (`put`, `add`,
//! `need`, `move`), its cell, for a move its second cell, and its amount. Numbers are decimal and
//! have no leading zeros, single blanks split, and a newline ends each line. A record has one text
//! only, and nothing else is read.

use crate::answer::{NO_ANSWER, Refusal};
use crate::raw::{self, Numbers};
use std::error::Error;
use std::fmt;

/// Why a text was not written or not read.
#[derive(Clone, Copy, Debug, PartialEq, Eq, Hash)]
#[non_exhaustive]
pub enum TextRefusal {
    /// The record is not 64 bytes or breaks a rule.
    BadRecord,
    /// The text is no record's; its first bad line, from 1.
    BadText { line: u32 },
    /// The lent buffer is shorter than the result.
    ShortBuffer,
}

/// The number of a bad text.
const BAD_TEXT: u8 = 15;
/// The number of a buffer that is too short.
const SHORT_BUFFER: u8 = 16;

impl TextRefusal {
    /// Its number.
    pub fn number(self) -> u8 {
        match self {
            TextRefusal::BadRecord => Refusal::BadRecord.number(),
            TextRefusal::BadText { .. } => BAD_TEXT,
            TextRefusal::ShortBuffer => SHORT_BUFFER,
        }
    }
}

impl fmt::Display for TextRefusal {
    /// Its number and what it means.
    fn fmt(&self, out: &mut fmt::Formatter) -> fmt::Result {
        write!(out, "refused {}: ", self.number())?;
        match self {
            TextRefusal::BadRecord => write!(out, "{}", Refusal::BadRecord.meaning()),
            TextRefusal::BadText { line } => write!(out, "line {line} of the text is bad"),
            TextRefusal::ShortBuffer => write!(out, "the buffer is shorter than the result"),
        }
    }
}

impl Error for TextRefusal {}

/// Writes the text of a record into the front of a buffer and gives its length, at most
/// [`LONGEST_TEXT`](crate::LONGEST_TEXT). Past it, and on a refusal, nothing is written.
///
/// ```
/// use shpendorak::{LONGEST_TEXT, TextRefusal, write_text};
///
/// # fn main() -> Result<(), TextRefusal> {
/// let mut booking = [0; 64]; // id 7, class 3, one operation: put 100 into cell 0
/// [booking[0], booking[4], booking[5], booking[8], booking[12]] = [7, 3, 1, 1, 100];
/// let mut text = [0; LONGEST_TEXT];
/// let length = write_text(&booking, &mut text)?;
/// assert_eq!(&text[..length], b"7 3\nput 0 100\n");
/// # Ok(())
/// # }
/// ```
pub fn write_text(booking: &[u8], text: &mut [u8]) -> Result<usize, TextRefusal> {
    let mut answer = NO_ANSWER;
    // SAFETY: every pointer is that of a slice with its length, or of the answer.
    unsafe {
        raw::shpendorak_write_text(
            booking.as_ptr(),
            booking.len(),
            text.as_mut_ptr(),
            text.len(),
            &mut answer,
        )
    };
    written(&answer)
}

/// Writes the record of a text into the front of a buffer and gives its length,
/// [`RECORD_BYTES`](crate::RECORD_BYTES). Past it, and on a refusal, nothing is written.
///
/// ```
/// use shpendorak::{RECORD_BYTES, TextRefusal, read_text};
///
/// # fn main() -> Result<(), TextRefusal> {
/// let mut booking = [0; RECORD_BYTES];
/// assert_eq!(read_text(b"7 3\nput 0 100\nmove 1 2 5\n", &mut booking)?, RECORD_BYTES);
/// assert_eq!(booking[..8], [7, 0, 0, 0, 3, 2, 0, 0]);
/// let bad = read_text(b"7 3\nput 0 0100\n", &mut booking);
/// assert_eq!(bad, Err(TextRefusal::BadText { line: 2 }));
/// # Ok(())
/// # }
/// ```
pub fn read_text(text: &[u8], booking: &mut [u8]) -> Result<usize, TextRefusal> {
    let mut answer = NO_ANSWER;
    // SAFETY: every pointer is that of a slice with its length, or of the answer.
    unsafe {
        raw::shpendorak_read_text(
            text.as_ptr(),
            text.len(),
            booking.as_mut_ptr(),
            booking.len(),
            &mut answer,
        )
    };
    written(&answer)
}

/// The length or the refusal that six numbers say; panics at numbers that no answer has.
fn written(numbers: &Numbers) -> Result<usize, TextRefusal> {
    let narrow = |number: u64| {
        u32::try_from(number).unwrap_or_else(|_| panic!("{number} is in no answer about a text"))
    };
    match *numbers {
        [raw::WRITTEN, length, 0, 0, 0, 0] => Ok(narrow(length) as usize),
        [raw::REFUSED, number, line, 0, 0, 0] => Err(refusal(narrow(number), narrow(line))),
        _ => panic!("{numbers:?} is no answer about a text"),
    }
}

/// The refusal with a number and a line that the archive gave.
fn refusal(number: u32, line: u32) -> TextRefusal {
    let all = [TextRefusal::BadRecord, TextRefusal::BadText { line }, TextRefusal::ShortBuffer];
    let given = all.into_iter().find(|refusal| u32::from(refusal.number()) == number);
    given.unwrap_or_else(|| panic!("the unknown refusal {number}"))
}
