//! What a call answers, and the numbers it answers when it will not act.

use crate::site::Cells;

/// The record is not 64 bytes or breaks a rule.
pub const BAD_RECORD: u8 = 3;
/// The id offered is queued.
pub const ID_QUEUED: u8 = 4;
/// 128 requests are queued.
pub const SITE_FULL: u8 = 5;
/// All 4,294,967,295 confirmations were taken.
pub const NUMBERS_USED_UP: u8 = 6;
/// The number is not the count of confirmations plus 1.
pub const WRONG_NUMBER: u8 = 7;
/// The id is not queued.
pub const ID_NOT_QUEUED: u8 = 8;
/// The request is confirmed already.
pub const CONFIRMED_ALREADY: u8 = 9;
/// The class is above 15.
pub const NO_SUCH_CLASS: u8 = 10;
/// The queue is empty, or its head is executed.
pub const NOTHING_TO_DO: u8 = 11;
/// The cell is above 63.
pub const NO_SUCH_CELL: u8 = 12;

/// The id offered was confirmed under one of the last 256 numbers.
pub const ID_KEPT: u8 = 14;
/// The mask names no class.
pub const EMPTY_MASK: u8 = 17;
/// Eight queries are open.
pub const QUERIES_OPEN: u8 = 18;
/// 4,294,967,295 queries were begun.
pub const QUERIES_USED_UP: u8 = 24;

/// What a call answers.
#[derive(Clone, Copy, Debug, PartialEq, Eq)]
pub enum Answer {
    /// The request was taken, at a place (1 is the head) and in a slot.
    Queued { id: u32, class: u8, place: usize, slot: u8 },
    /// The head did an operation and has more to do.
    Stepped { id: u32, done: usize },
    /// The waiting head did its last operation.
    Executed { id: u32 },
    /// The request committed and its slot is free; the mark is the place of the operation that
    /// declined first, from 1, or 0; it was put back so often.
    Committed { id: u32, number: u32, mark: usize, slot: u8, backs: u64 },
    /// The request is confirmed and commits at the w-th work call; 0 if none was put back.
    Waiting { id: u32, w: usize, put_back: u32 },
    /// The committed cell.
    Value(u32),
    /// The work calls still needed by a confirmed request, and how often it was put back.
    ToDo { w: usize, backs: u64 },
    /// The request is queued and not confirmed; it was put back so often.
    Unconfirmed { backs: u64 },
    /// The query was begun at a place, from 1.
    Begun { place: u8 },
    /// The entry of the query at a place was read: the class's 64 committed cells.
    Read { place: u8, class: u8, cells: Cells },
    /// The call did not act.
    Refused(u8),
}
