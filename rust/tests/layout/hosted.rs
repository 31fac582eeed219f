//! A site of plain bytes in the archive's hands, beside the bytes that it should have.

use crate::table::{
    Field, every_field, kept, len, op, place, query, site, slot, start_of, start_of_query, sum,
};
use shpendorak::raw::{
    self, ADD, CELLS, CLASSES, KEPT, MOST_OPS, MOVE, NEED, NUMBERS, Numbers, PUT, RUN_LENGTH, SLOTS,
};

/// How many confirmations were taken before; its four bytes differ.
pub const OLD_COUNT: u32 = 0x0D0C_0B0A;
/// What ids confirmed before are above.
const OLD_IDS: u64 = 1 << 30;
/// How often the request in slot 0 was put back already; that in each next slot once more.
const OLD_BACKS: u64 = 0x0403_0201;
/// Bits of a byte.
const BYTE: usize = u8::BITS as usize;

/// A site as bytes, passed as a site is.
#[repr(C, align(8))]
#[derive(Clone, Copy)]
struct Bytes([u8; site::SIZE]);

unsafe extern "C" {
    fn shpendorak_fresh(
        c: *mut u32,
        c_len: usize,
        w: *mut u32,
        w_len: usize,
        answer: *mut Numbers,
    ) -> Bytes;
    fn shpendorak_offer(
        site: Bytes,
        c: *const u32,
        c_len: usize,
        w: *const u32,
        w_len: usize,
        booking: *const u8,
        len: usize,
        answer: *mut Numbers,
    ) -> Bytes;
    fn shpendorak_confirm(
        site: Bytes,
        c: *mut u32,
        c_len: usize,
        w: *mut u32,
        w_len: usize,
        id: u64,
        number: u64,
        answer: *mut Numbers,
    ) -> Bytes;
    fn shpendorak_work(
        site: Bytes,
        c: *mut u32,
        c_len: usize,
        w: *mut u32,
        w_len: usize,
        class: u64,
        entry: *mut [u32; CELLS],
        answer: *mut Numbers,
    ) -> Bytes;
    fn shpendorak_query(
        site: Bytes,
        c: *const u32,
        c_len: usize,
        w: *mut u32,
        w_len: usize,
        mask: u16,
        answer: *mut Numbers,
    ) -> Bytes;
}

/// A site in the archive's hands beside the bytes that it should have.
pub struct Hosted {
    site: Bytes,
    should: Bytes,
    committed: [u32; RUN_LENGTH],
    working: [u32; RUN_LENGTH],
    entry: [u32; CELLS],
    answer: Numbers,
    fields: Vec<Field>,
}

/// Seven operations that differ in every field, the first of which declines.
const OPS: [raw::Op; MOST_OPS] = [
    raw::Op { code: NEED, cell: 1, second: 0, amount: 0x0403_0201 },
    raw::Op { code: PUT, cell: 2, second: 0, amount: 0x1413_1211 },
    raw::Op { code: ADD, cell: 3, second: 0, amount: 0x2423_2221 },
    raw::Op { code: MOVE, cell: 4, second: 14, amount: 0x3433_3231 },
    raw::Op { code: MOVE, cell: 5, second: 15, amount: 0x4443_4241 },
    raw::Op { code: MOVE, cell: 6, second: 16, amount: 0x5453_5251 },
    raw::Op { code: MOVE, cell: 63, second: 17, amount: 0x6463_6261 },
];

/// The id of the request in a slot; its four bytes differ.
fn id_of(slot: usize) -> u32 {
    0xC0B0_A001 + slot as u32
}

/// The record of the request that goes into a slot.
fn record(slot: usize, class: usize) -> Vec<u8> {
    let mut bytes = id_of(slot).to_le_bytes().to_vec();
    bytes.extend([class as u8, MOST_OPS as u8, 0, 0]);
    for op in OPS {
        bytes.extend([op.code, op.cell, op.second, 0]);
        bytes.extend(op.amount.to_le_bytes());
    }
    bytes
}

impl Hosted {
    /// A fresh site, all zero.
    pub fn fresh() -> Hosted {
        let (mut committed, mut working) = ([1; RUN_LENGTH], [1; RUN_LENGTH]);
        let mut answer = [0; NUMBERS];
        let (c, w) = (committed.as_mut_ptr(), working.as_mut_ptr());
        // SAFETY: both runs have the lengths given, the answer has six numbers.
        let site = unsafe { shpendorak_fresh(c, RUN_LENGTH, w, RUN_LENGTH, &mut answer) };
        let should = Bytes([0; site::SIZE]);
        let fields = every_field();
        let entry = [0; CELLS];
        let hosted = Hosted { site, should, committed, working, entry, answer, fields };
        hosted.check(raw::STARTED);
        hosted
    }

    /// Notes that a field should now hold a number.
    fn should(&mut self, field: Field, number: u64) {
        let bytes = &number.to_le_bytes()[..field.bytes];
        self.should.0[field.at..field.at + field.bytes].copy_from_slice(bytes);
    }

    /// Notes that the sum of a class changes by so much.
    fn should_add(&mut self, class: usize, change: i64) {
        let Field { at, bytes } = sum(class);
        let noted = self.should.0[at..at + bytes].iter().rev();
        let old = noted.fold(0, |sum: u64, &byte| sum << BYTE | u64::from(byte));
        self.should(sum(class), old.wrapping_add_signed(change));
    }

    /// Notes that a slot is used or free now.
    fn should_use(&mut self, slot: usize, used: bool) {
        let width = u64::BITS as usize;
        let word = [site::low(), site::high()][slot / width];
        let bytes = &mut self.should.0[word.at..word.at + word.bytes];
        let (at, bit) = (slot % width / BYTE, 1 << (slot % BYTE));
        bytes[at] = if used { bytes[at] | bit } else { bytes[at] & !bit };
    }

    /// Asserts the kind of the last answer, and every byte of every field.
    fn check(&self, kind: u64) {
        assert_eq!(self.answer[0], kind, "{:?}", self.answer);
        for field in &self.fields {
            let bytes = field.at..field.at + field.bytes;
            assert_eq!(self.site.0[bytes.clone()], self.should.0[bytes], "at byte {}", field.at);
        }
    }

    /// Offers the request of a slot; it takes that slot and the next place.
    pub fn offer(&mut self, slot: usize, class: usize) {
        let booking = record(slot, class);
        let (c, w) = (self.committed.as_ptr(), self.working.as_ptr());
        // SAFETY: both runs and the record have the lengths given, the answer has six numbers.
        self.site = unsafe {
            let (b, b_len) = (booking.as_ptr(), booking.len());
            shpendorak_offer(self.site, c, RUN_LENGTH, w, RUN_LENGTH, b, b_len, &mut self.answer)
        };
        let start = start_of(slot);
        self.should(slot::id().from(start), id_of(slot).into());
        self.should(slot::class().from(start), class as u64);
        self.should(slot::count().from(start), MOST_OPS as u64);
        for (at, op) in OPS.iter().enumerate() {
            let start = start + slot::ops().part(at, MOST_OPS).at;
            self.should(op::code().from(start), op.code.into());
            self.should(op::cell().from(start), op.cell.into());
            self.should(op::second().from(start), op.second.into());
            self.should(op::amount().from(start), op.amount.into());
        }
        self.should(place(class, slot), slot as u64);
        self.should(len(class), slot as u64 + 1);
        self.should_use(slot, true);
        self.check(raw::QUEUED);
    }

    /// Confirms the request of a slot, with nothing done; it gets its number, and no more is noted.
    pub fn confirm(&mut self, slot: usize, class: usize, number: u32) {
        let (c, w) = (self.committed.as_mut_ptr(), self.working.as_mut_ptr());
        let (id, answer) = (id_of(slot).into(), &mut self.answer);
        // SAFETY: both runs have the lengths given, the answer has six numbers.
        self.site = unsafe {
            let number = number.into();
            shpendorak_confirm(self.site, c, RUN_LENGTH, w, RUN_LENGTH, id, number, answer)
        };
        self.should(slot::number().from(start_of(slot)), number.into());
        self.should(site::confirmations(), number.into());
        self.should(kept(number), id_of(slot).into());
        self.should_add(class, MOST_OPS as i64);
        self.check(raw::WAITING);
    }

    /// Confirms the second request of a class, in a slot: it becomes the head, and the one that was
    /// is put back once more.
    pub fn overtake(&mut self, head: usize, slot: usize, class: usize, number: u32) {
        self.should(place(class, 0), slot as u64);
        self.should(place(class, 1), head as u64);
        self.should(slot::backs().from(start_of(head)), OLD_BACKS + head as u64 + 1);
        self.confirm(slot, class, number);
    }

    /// Works once for a class whose head is confirmed or an entry, so that one less is to do; what
    /// else changes is noted by the caller.
    fn work(&mut self, class: usize) {
        let (c, w) = (self.committed.as_mut_ptr(), self.working.as_mut_ptr());
        let (class, entry, answer) = (class as u64, &mut self.entry, &mut self.answer);
        // SAFETY: both runs have the lengths given, the entry 64 cells, the answer six numbers.
        self.site = unsafe {
            shpendorak_work(self.site, c, RUN_LENGTH, w, RUN_LENGTH, class, entry, answer)
        };
        self.should_add(class as usize, -1);
    }

    /// Begins a query over all classes, which have no requests; it takes a place and stands at the
    /// end of each queue.
    pub fn query(&mut self, at: usize) {
        let (c, w) = (self.committed.as_ptr(), self.working.as_mut_ptr());
        let (mask, answer) = (u16::MAX, &mut self.answer);
        // SAFETY: both runs have the lengths given, the answer has six numbers.
        self.site =
            unsafe { shpendorak_query(self.site, c, RUN_LENGTH, w, RUN_LENGTH, mask, answer) };
        let start = start_of_query(at);
        self.should(query::classes().from(start), mask.into());
        self.should(query::begun().from(start), OLD_COUNT.into());
        self.should(site::begun(), at as u64);
        for class in 0..CLASSES {
            self.should(place(class, at - 1), (SLOTS + at - 1) as u64);
            self.should(len(class), at as u64);
            self.should_add(class, 1);
        }
        self.check(raw::BEGUN);
        assert_eq!(self.answer[1], at as u64);
    }

    /// Reads the entry of the query at a place, which is the head of a class; so many stand there, and
    /// the classes before it are read.
    pub fn read_entry(&mut self, at: usize, class: usize, queued: usize) {
        self.entry = [u32::MAX; CELLS];
        self.work(class);
        let left = u16::MAX << class << 1;
        let start = start_of_query(at);
        self.should(query::classes().from(start), left.into());
        self.should(query::begun().from(start), if left == 0 { 0 } else { OLD_COUNT.into() });
        self.leave_queue(class, queued);
        self.check(raw::ENTRY);
        assert_eq!(self.entry, [0; CELLS]);
    }

    /// Notes that the head of a class left its queue, in which so many stood.
    fn leave_queue(&mut self, class: usize, queued: usize) {
        let queue = place(class, 0).at;
        self.should.0.copy_within(queue + 1..queue + queued, queue);
        self.should(place(class, queued - 1), 0);
        self.should(len(class), queued as u64 - 1);
    }

    /// Works the head of a class, which stands in a slot, to its commit: so many are queued. Its
    /// first operation declines, so that its mark is 1.
    pub fn work_off(&mut self, slot: usize, class: usize, queued: usize, commits: u32) {
        let start = start_of(slot);
        for done in 1..MOST_OPS {
            self.work(class);
            self.should(slot::done().from(start), done as u64);
            self.should(slot::mark().from(start), 1);
            self.check(raw::STEPPED);
        }
        self.work(class);
        self.should.0[start..start + slot::SIZE].fill(0);
        self.leave_queue(class, queued);
        self.should_use(slot, false);
        self.should(site::commits(), commits.into());
        self.check(raw::COMMITTED);
    }

    /// Raises both counts by hand and keeps an id for each of the last numbers, in the bytes that
    /// the table says.
    pub fn raise_counts(&mut self, count: u32) {
        for field in [site::confirmations(), site::commits()] {
            self.put(field, count.into());
        }
        for number in count - KEPT as u32 + 1..=count {
            self.put(kept(number), OLD_IDS + u64::from(number));
        }
    }

    /// Gives the request of a slot its times put back by hand.
    pub fn put_backs(&mut self, slot: usize) {
        self.put(slot::backs().from(start_of(slot)), OLD_BACKS + slot as u64);
    }

    /// Puts a number into a field, in the site and in what it should be.
    fn put(&mut self, field: Field, number: u64) {
        self.should(field, number);
        let bytes = field.at..field.at + field.bytes;
        self.site.0[bytes.clone()].copy_from_slice(&self.should.0[bytes]);
    }
}
