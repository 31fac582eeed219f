//! The text form of a request: writing it, and reading it by writing it again.
//!
//! A text is read by a guess: each line gives a valid request its next part, read as freely as can
//! be, and a line that makes no sense gives any part. Then the guess is written. A text that comes
//! back the same is the text of the guess. In any other, the first line that does not come back is
//! the first bad one: no valid part has that line, or the guess would have found it.

use crate::answer::BAD_RECORD;
use crate::record::{parse, write, Op, Request, MAX_OPS, RECORD_BYTES};
use std::iter;

/// The text is no record's.
pub const BAD_TEXT: u8 = 15;
/// The lent buffer is shorter than the result.
pub const SHORT_BUFFER: u8 = 16;
/// The longest text: each number has as many digits as it can, and each operation is a move.
pub const LONGEST_TEXT: usize = "4294967295 15\n".len() + MAX_OPS * "move 63 62 4294967295\n".len();
/// What ends a line.
pub const NEWLINE: u8 = b'\n';

/// Any first line's id and class.
const ANY_HEAD: (u32, u8) = (1, 0);
/// Any operation.
const ANY_OP: Op = Op::Put { cell: 0, amount: 0 };

/// Why a text or a record is not handed out.
#[derive(Clone, Copy, Debug, PartialEq, Eq)]
pub enum Refusal {
    /// The record is not 64 bytes or breaks a rule.
    BadRecord,
    /// The text is no record's; its first bad line, from 1.
    BadText { line: usize },
    /// The lent buffer is shorter than the result.
    ShortBuffer,
}

impl Refusal {
    /// Its number.
    pub fn number(self) -> u8 {
        match self {
            Refusal::BadRecord => BAD_RECORD,
            Refusal::BadText { .. } => BAD_TEXT,
            Refusal::ShortBuffer => SHORT_BUFFER,
        }
    }
}

/// The text of a record.
pub fn write_text(record: &[u8]) -> Result<Vec<u8>, Refusal> {
    let request = parse(record).ok_or(Refusal::BadRecord)?;
    Ok(text_of(&request).into_bytes())
}

/// The record that a text is the text of.
pub fn read_text(text: &[u8]) -> Result<[u8; RECORD_BYTES], Refusal> {
    let guess = guess(text);
    let again = text_of(&guess).into_bytes();
    if again == text {
        Ok(write(&guess))
    } else {
        Err(Refusal::BadText { line: first_different_line(text, &again) })
    }
}

/// Puts a result into a lent buffer, if it is long enough; the result's length.
pub fn hand_over(result: &[u8], buffer: &mut [u8]) -> Result<usize, Refusal> {
    let room = buffer.get_mut(..result.len()).ok_or(Refusal::ShortBuffer)?;
    room.copy_from_slice(result);
    Ok(result.len())
}

/// The text of a request.
fn text_of(request: &Request) -> String {
    let head = format!("{} {}\n", request.id, request.class);
    iter::once(head).chain(request.ops.iter().map(op_line)).collect()
}

/// The line of an operation.
fn op_line(op: &Op) -> String {
    match op {
        Op::Put { cell, amount } => format!("put {cell} {amount}\n"),
        Op::Add { cell, amount } => format!("add {cell} {amount}\n"),
        Op::Need { cell, amount } => format!("need {cell} {amount}\n"),
        Op::Move { cell, second, amount } => format!("move {cell} {second} {amount}\n"),
    }
}

/// The first line in which two different texts differ, from 1: all before it ended alike.
fn first_different_line(text: &[u8], other: &[u8]) -> usize {
    let alike = text.iter().zip(other).take_while(|(byte, other)| byte == other);
    1 + alike.filter(|(byte, _)| **byte == NEWLINE).count()
}

/// A valid request whose text has all lines of this one that a valid text can have there.
fn guess(text: &[u8]) -> Request {
    let mut lines = text.split_inclusive(|byte| *byte == NEWLINE);
    let (id, class) = lines.next().and_then(guess_head).unwrap_or(ANY_HEAD);
    let mut ops: Vec<Op> =
        lines.take(MAX_OPS).map(|line| guess_op(line).unwrap_or(ANY_OP)).collect();
    if ops.is_empty() {
        ops.push(ANY_OP);
    }
    Request { id, class, ops }
}

/// The valid id and class that a line could mean.
fn guess_head(line: &[u8]) -> Option<(u32, u8)> {
    let [id, class] = words(line)[..] else { return None };
    let (id, class) = (id.parse().ok()?, class.parse().ok()?);
    is_valid(&Request { id, class, ops: vec![ANY_OP] }).then_some((id, class))
}

/// The valid operation that a line could mean.
fn guess_op(line: &[u8]) -> Option<Op> {
    let (name, cell, second, amount) = match words(line)[..] {
        [name, cell, amount] => (name, cell, None, amount),
        [name, cell, second, amount] => (name, cell, Some(second), amount),
        _ => return None,
    };
    let (cell, amount) = (cell.parse().ok()?, amount.parse().ok()?);
    let op = match (name, second) {
        ("put", None) => Op::Put { cell, amount },
        ("add", None) => Op::Add { cell, amount },
        ("need", None) => Op::Need { cell, amount },
        ("move", Some(second)) => Op::Move { cell, second: second.parse().ok()?, amount },
        _ => return None,
    };
    let (id, class) = ANY_HEAD;
    is_valid(&Request { id, class, ops: vec![op] }).then_some(op)
}

/// The words of a line, however they are split; none if it is no text at all.
fn words(line: &[u8]) -> Vec<&str> {
    std::str::from_utf8(line).unwrap_or_default().split_whitespace().collect()
}

/// Whether the record of a request breaks no rule.
fn is_valid(request: &Request) -> bool {
    parse(&write(request)).is_some()
}
