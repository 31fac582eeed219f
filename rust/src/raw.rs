//! The structs and functions of the archive `libhost.a`, as `include/shpendorak.h` has them.

/// Classes are 0 to 15.
pub const CLASSES: usize = 16;
/// Cells of a class are 0 to 63.
pub const CELLS: usize = 64;
/// Cells in a run, committed or working: cell k of class c stands at 64c + k.
pub const RUN_LENGTH: usize = CLASSES * CELLS;
/// Slots are 0 to 127.
pub const SLOTS: usize = 128;
/// So many queries may be open, at places 1 to 8.
pub const QUERIES: usize = 8;
/// The queue places of a class: one for each slot and for an entry of each query.
pub const CLASS_PLACES: usize = SLOTS + QUERIES;
/// The queue places of all classes.
pub const PLACES: usize = CLASSES * CLASS_PLACES;
/// A site keeps the ids of as many of its last confirmations.
pub const KEPT: usize = 256;
/// The most operations a request may have.
pub const MOST_OPS: usize = 7;
/// Bytes of a request record.
pub const RECORD_BYTES: usize = 64;
/// Bytes of the longest text of a record.
pub const LONGEST_TEXT: usize = 168;
/// Numbers of an answer: what it is, then up to five numbers.
pub const NUMBERS: usize = 6;

/// Put: the cell becomes the amount.
pub const PUT: u8 = 1;
/// Add: the amount is added to the cell modulo 2^32.
pub const ADD: u8 = 2;
/// Need: declines if the cell is less than the amount.
pub const NEED: u8 = 3;
/// Move: takes the amount from the cell and gives it to the second, or declines.
pub const MOVE: u8 = 4;

/// Refused: the refusal's number, and for a bad text its first bad line.
pub const REFUSED: u64 = 0;
/// Queued: id, class, place, slot.
pub const QUEUED: u64 = 1;
/// Stepped: id, operations done.
pub const STEPPED: u64 = 2;
/// Executed: id.
pub const EXECUTED: u64 = 3;
/// Committed: id, number, mark (the place of the first operation that declined, or 0), slot, times
/// put back.
pub const COMMITTED: u64 = 4;
/// Waiting: id, W, the id put back or 0.
pub const WAITING: u64 = 5;
/// Value: the committed cell.
pub const VALUE: u64 = 6;
/// A confirmed request looked at: W, times put back.
pub const TO_DO: u64 = 7;
/// An unconfirmed request looked at: times put back.
pub const UNCONFIRMED: u64 = 8;
/// A fresh site: no numbers.
pub const STARTED: u64 = 9;
/// A text or a record written into the lent buffer: its length.
pub const WRITTEN: u64 = 10;
/// A query begun: its place, from 1.
pub const BEGUN: u64 = 11;
/// An entry of a query read: the query's place, the class; the cells stand in the lent array.
pub const ENTRY: u64 = 12;

/// An answer as its six numbers.
pub type Numbers = [u64; NUMBERS];

/// One operation of a request.
#[repr(C)]
#[derive(Clone, Copy, Debug, Default, PartialEq, Eq)]
pub struct Op {
    /// 1 put, 2 add, 3 need, 4 move.
    pub code: u8,
    /// The cell, 0 to 63.
    pub cell: u8,
    /// The second cell of a move; else 0.
    pub second: u8,
    /// The amount.
    pub amount: u32,
}

/// A request and how far it has come; a free slot is all zero.
#[repr(C)]
#[derive(Clone, Copy, Debug, Default, PartialEq, Eq)]
pub struct Slot {
    /// The id; 0 in a free slot.
    pub id: u32,
    /// The class.
    pub class: u8,
    /// How many operations it has.
    pub count: u8,
    /// The operations; those past the count are zero.
    pub ops: [Op; MOST_OPS],
    /// The definitive number; 0 while it waits.
    pub number: u32,
    /// How many operations are done.
    pub done: u8,
    /// The place of the first done operation that declined, 1 to 7, or 0.
    pub mark: u8,
    /// How often it was put back since its offer.
    pub backs: u64,
}

/// A query: the classes that it has still to read, and when it began; a free one is all zero.
#[repr(C)]
#[derive(Clone, Copy, Debug, Default, PartialEq, Eq)]
pub struct Query {
    /// Bit c is class c.
    pub classes: u16,
    /// The count of confirmations when it began.
    pub begun: u32,
}

/// A site: plain data that may be stored and brought back; every call looks whether it is sound.
#[repr(C)]
#[derive(Clone, Copy, Debug, PartialEq, Eq)]
pub struct Site {
    /// The slots.
    pub slots: [Slot; SLOTS],
    /// The queues: place p of class c, from 0, stands at 136c + p. A place holds a slot's number, or
    /// for an entry of a query 128 plus the query's place less 1.
    pub queue: [u8; PLACES],
    /// How long each queue is.
    pub lens: [u8; CLASSES],
    /// The map of used slots, 0 to 63: bit i is slot i.
    pub low: u64,
    /// The map of used slots, 64 to 127.
    pub high: u64,
    /// The count of confirmations.
    pub confirmations: u32,
    /// The count of commits.
    pub commits: u32,
    /// The ids of the last 256 confirmations: that of number n stands at n mod 256.
    pub kept: [u32; KEPT],
    /// The queries, by their place less 1.
    pub queries: [Query; QUERIES],
    /// The count of queries begun.
    pub begun: u32,
    /// For each class the operations and query entries still to do by the confirmed part of its queue.
    pub sums: [u16; CLASSES],
}

#[link(name = "host", kind = "static")]
unsafe extern "C" {
    /// A fresh site, both runs cleared; or an empty one and refusal 1.
    pub fn shpendorak_fresh(
        committed: *mut u32,
        committed_len: usize,
        working: *mut u32,
        working_len: usize,
        answer: *mut Numbers,
    ) -> Site;

    /// Queues the request of a record.
    pub fn shpendorak_offer(
        site: Site,
        committed: *const u32,
        committed_len: usize,
        working: *const u32,
        working_len: usize,
        booking: *const u8,
        booking_len: usize,
        answer: *mut Numbers,
    ) -> Site;

    /// Confirms a queued id under its definitive number.
    pub fn shpendorak_confirm(
        site: Site,
        committed: *mut u32,
        committed_len: usize,
        working: *mut u32,
        working_len: usize,
        id: u64,
        number: u64,
        answer: *mut Numbers,
    ) -> Site;

    /// The head of a class does its next operation, or the entry of a query there is read.
    pub fn shpendorak_work(
        site: Site,
        committed: *mut u32,
        committed_len: usize,
        working: *mut u32,
        working_len: usize,
        class: u64,
        entry: *mut [u32; CELLS],
        answer: *mut Numbers,
    ) -> Site;

    /// Begins a query over the classes of a mask.
    pub fn shpendorak_query(
        site: Site,
        committed: *const u32,
        committed_len: usize,
        working: *mut u32,
        working_len: usize,
        mask: u16,
        answer: *mut Numbers,
    ) -> Site;

    /// The committed cell of a class; hands the site back as it was.
    pub fn shpendorak_read(
        site: Site,
        committed: *const u32,
        committed_len: usize,
        working: *const u32,
        working_len: usize,
        class: u64,
        cell: u64,
        answer: *mut Numbers,
    ) -> Site;

    /// How far a queued id has come; hands the site back as it was.
    pub fn shpendorak_look(
        site: Site,
        committed: *const u32,
        committed_len: usize,
        working: *const u32,
        working_len: usize,
        id: u64,
        answer: *mut Numbers,
    ) -> Site;

    /// Writes the text of a record into a lent buffer.
    pub fn shpendorak_write_text(
        booking: *const u8,
        booking_len: usize,
        text: *mut u8,
        text_len: usize,
        answer: *mut Numbers,
    );

    /// Reads a text and writes its record into a lent buffer.
    pub fn shpendorak_read_text(
        text: *const u8,
        text_len: usize,
        booking: *mut u8,
        booking_len: usize,
        answer: *mut Numbers,
    );
}
