//! The stack that a call of the archive needs, measured on a painted stack of its own.
//!
//! Counted is every byte below the return address of the call, down to the lowest word that was written: the call's own frame and those of all
//! that it calls. Not counted are the return address itself, and above it the caller's frame with the site that it hands over by value.

use crate::call::{Answered, Call, Held};
use crate::raw::*;
use shpendorak::answered;
use std::arch::{asm, naked_asm};
use std::mem::{MaybeUninit, transmute};

/// The words of the painted stack: many times what any call needs.
const WORDS: usize = 64 * 1024;
/// What the stack is painted with, in turn: a word that a call writes differs from one of them at least.
const PAINTS: [u64; 2] = [0xA5A5_A5A5_A5A5_A5A5, 0x5A5A_5A5A_5A5A_5A5A];
/// Words at the top that stay free, so that the top is aligned as calls need it.
const TOP_WORDS: usize = 4;
/// A stack pointer is a multiple of this before a call.
const ALIGNMENT: usize = 16;

/// A site that is there only once a call has handed it back; passed like a site.
type Back = MaybeUninit<Site>;
/// The numbers that a call writes.
type Out = *mut Numbers;
/// The type of fresh.
type Fresh = unsafe extern "C" fn(*mut u32, usize, *mut u32, usize, Out) -> Back;
/// The type of offer.
type Offer =
    unsafe extern "C" fn(Site, *mut u32, usize, *mut u32, usize, *const u8, usize, Out) -> Back;
/// The type of look.
type OneNumber = unsafe extern "C" fn(Site, *mut u32, usize, *mut u32, usize, u64, Out) -> Back;
/// The type of work.
type Work =
    unsafe extern "C" fn(Site, *mut u32, usize, *mut u32, usize, u64, *mut Entry, Out) -> Back;
/// The type of query.
type OneMask = unsafe extern "C" fn(Site, *mut u32, usize, *mut u32, usize, u16, Out) -> Back;
/// The cells of an entry that is read.
type Entry = [u32; CELLS];
/// The type of confirm and read.
type TwoNumbers =
    unsafe extern "C" fn(Site, *mut u32, usize, *mut u32, usize, u64, u64, Out) -> Back;

/// The functions behind the calls.
#[derive(Clone, Copy)]
struct Entries {
    /// A fresh site.
    fresh: Fresh,
    /// Offers a record.
    offer: Offer,
    /// Confirms an id under a number.
    confirm: TwoNumbers,
    /// Has the head of a class do its next operation.
    work: Work,
    /// Reads a committed cell.
    read: TwoNumbers,
    /// Looks how far an id is.
    look: OneNumber,
    /// Begins a query.
    query: OneMask,
}

impl Entries {
    /// The functions of the archive.
    fn of_archive() -> Entries {
        // Sound: the types differ only in whether a pointer is to read from or to write to, and in whether the site handed back is known to be there.
        unsafe {
            Entries {
                fresh: transmute::<*const (), Fresh>(shpendorak_fresh as *const ()),
                offer: transmute::<*const (), Offer>(shpendorak_offer as *const ()),
                confirm: transmute::<*const (), TwoNumbers>(shpendorak_confirm as *const ()),
                work: transmute::<*const (), Work>(shpendorak_work as *const ()),
                read: transmute::<*const (), TwoNumbers>(shpendorak_read as *const ()),
                look: transmute::<*const (), OneNumber>(shpendorak_look as *const ()),
                query: transmute::<*const (), OneMask>(shpendorak_query as *const ()),
            }
        }
    }

    /// A stub in place of each function.
    fn of_stubs() -> Entries {
        // Sound: the stub looks at none of its arguments and hands back one word, which nobody takes as a site.
        unsafe {
            Entries {
                fresh: transmute::<*const (), Fresh>(stub as *const ()),
                offer: transmute::<*const (), Offer>(stub as *const ()),
                confirm: transmute::<*const (), TwoNumbers>(stub as *const ()),
                work: transmute::<*const (), Work>(stub as *const ()),
                read: transmute::<*const (), TwoNumbers>(stub as *const ()),
                look: transmute::<*const (), OneNumber>(stub as *const ()),
                query: transmute::<*const (), OneMask>(stub as *const ()),
            }
        }
    }
}

/// Stands in for a call: writes its stack pointer, which is at its return address, where the site belongs, and returns at once.
#[unsafe(naked)]
extern "C" fn stub() {
    naked_asm!("mov [rdi], rsp", "mov rax, rdi", "ret")
}

/// What is measured: fresh, or a call on a site.
#[derive(Clone, Copy, Debug, PartialEq, Eq)]
pub enum Asked {
    /// A fresh site.
    Fresh,
    /// A call on the site.
    Call(Call),
}

/// What is handed to the painted stack and back.
struct Job<'a> {
    /// The functions to call.
    entries: Entries,
    /// What is asked.
    asked: &'a Asked,
    /// The site and cells that it is asked of.
    held: &'a mut Held,
    /// The site that comes back.
    back: Back,
    /// The cells of an entry that is read.
    entry: Entry,
    /// The answer that is written.
    answer: Numbers,
}

/// Makes the call of a job; the only caller on the painted stack.
unsafe extern "C" fn make(job: *mut Job) {
    // Sound: the job is lent for this call alone, and its runs, record and answer with their lengths.
    unsafe {
        let Job { entries, asked, held, back, entry, answer } = &mut *job;
        let Held { site, committed, working } = &mut **held;
        let (c, c_len) = (committed.as_mut_ptr(), committed.len());
        let (w, w_len) = (working.as_mut_ptr(), working.len());
        *back = match **asked {
            Asked::Fresh => (entries.fresh)(c, c_len, w, w_len, answer),
            Asked::Call(Call::Offer(ref record)) => {
                let (bytes, len) = (record.as_ptr(), record.len());
                (entries.offer)(*site, c, c_len, w, w_len, bytes, len, answer)
            }
            Asked::Call(Call::Confirm { id, number }) => {
                (entries.confirm)(*site, c, c_len, w, w_len, id, number, answer)
            }
            Asked::Call(Call::Work { class }) => {
                (entries.work)(*site, c, c_len, w, w_len, class, entry, answer)
            }
            Asked::Call(Call::Read { class, cell }) => {
                (entries.read)(*site, c, c_len, w, w_len, class, cell, answer)
            }
            Asked::Call(Call::Look { id }) => (entries.look)(*site, c, c_len, w, w_len, id, answer),
            Asked::Call(Call::Query { mask }) => {
                (entries.query)(*site, c, c_len, w, w_len, mask, answer)
            }
        };
    }
}

/// Makes the call of a job with the stack pointer at a top of its own.
fn make_at(top: usize, job: &mut Job) {
    // Sound: the stack below the top is far larger than what is used, and the old stack pointer waits in a register that calls keep.
    unsafe {
        asm!(
            "mov r12, rsp",
            "mov rsp, {top}",
            "call {make}",
            "mov rsp, r12",
            top = in(reg) top,
            make = sym make,
            in("rdi") &raw mut *job,
            out("r12") _,
            clobber_abi("C"),
        );
    }
}

/// A painted stack on which calls are made.
pub struct Gauge {
    /// The stack, from its lowest word.
    words: Vec<u64>,
    /// How many calls were made.
    turn: usize,
}

impl Default for Gauge {
    /// A stack on which nothing was called yet.
    fn default() -> Gauge {
        Gauge { words: vec![0; WORDS], turn: 0 }
    }
}

impl Gauge {
    /// Makes a call: its answer, and the bytes of stack that it needed. The site and cells become what it made of them.
    pub fn take(&mut self, held: &mut Held, asked: &Asked) -> (Answered, usize) {
        self.turn += 1;
        let paint = PAINTS[self.turn % PAINTS.len()];
        let top = self.top();
        let (back, entry, answer) = (Back::uninit(), [0; CELLS], Numbers::default());
        let mut job = Job { entries: Entries::of_stubs(), asked, held, back, entry, answer };
        make_at(top, &mut job);
        // Sound: the stub has written a word there.
        let entered = unsafe { job.back.as_ptr().cast::<usize>().read() };
        job.entries = Entries::of_archive();
        self.words.fill(paint);
        make_at(top, &mut job);
        // Sound: each call of the archive hands back a site.
        job.held.site = unsafe { job.back.assume_init() };
        (answered(&job.answer, &job.entry), entered - self.lowest_written(paint))
    }

    /// The address at which the painted stack begins, downwards.
    fn top(&self) -> usize {
        let end = self.words[WORDS - TOP_WORDS..].as_ptr() as usize;
        end / ALIGNMENT * ALIGNMENT
    }

    /// The address of the lowest word that is not as it was painted.
    fn lowest_written(&self, paint: u64) -> usize {
        let at = self.words.iter().position(|&word| word != paint);
        let at = at.expect("the caller's frame at least is written");
        assert!(at > 0, "the painted stack is too small");
        self.words[at..].as_ptr() as usize
    }
}
