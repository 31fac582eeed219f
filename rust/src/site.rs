//! The calls of a site over slices.

use crate::answer::{Answer, NO_ANSWER, NO_CELLS, Refusal, answered};
use crate::raw::{self, Site};

impl Site {
    /// A fresh site: nothing queued, both counts 0, and all cells of both runs cleared.
    pub fn fresh(committed: &mut [u32], working: &mut [u32]) -> Result<Site, Refusal> {
        let mut answer = NO_ANSWER;
        // SAFETY: every pointer is that of a slice with its length, or of the answer.
        let site = unsafe {
            raw::shpendorak_fresh(
                committed.as_mut_ptr(),
                committed.len(),
                working.as_mut_ptr(),
                working.len(),
                &mut answer,
            )
        };
        answered(&answer, &NO_CELLS).map(|_| site)
    }

    /// Queues the request of a record, at the end of its class queue and in the lowest free slot.
    pub fn offer(
        &mut self,
        committed: &[u32],
        working: &[u32],
        booking: &[u8],
    ) -> Result<Answer, Refusal> {
        let mut answer = NO_ANSWER;
        // SAFETY: every pointer is that of a slice with its length, or of the answer.
        *self = unsafe {
            raw::shpendorak_offer(
                *self,
                committed.as_ptr(),
                committed.len(),
                working.as_ptr(),
                working.len(),
                booking.as_ptr(),
                booking.len(),
                &mut answer,
            )
        };
        answered(&answer, &NO_CELLS)
    }

    /// Confirms a queued id under its definitive number, the count of confirmations plus 1.
    pub fn confirm(
        &mut self,
        committed: &mut [u32],
        working: &mut [u32],
        id: u64,
        number: u64,
    ) -> Result<Answer, Refusal> {
        let mut answer = NO_ANSWER;
        // SAFETY: every pointer is that of a slice with its length, or of the answer.
        *self = unsafe {
            raw::shpendorak_confirm(
                *self,
                committed.as_mut_ptr(),
                committed.len(),
                working.as_mut_ptr(),
                working.len(),
                id,
                number,
                &mut answer,
            )
        };
        answered(&answer, &NO_CELLS)
    }

    /// The head of a class does its next operation, or the entry of a query there is read.
    pub fn work(
        &mut self,
        committed: &mut [u32],
        working: &mut [u32],
        class: u64,
    ) -> Result<Answer, Refusal> {
        let (mut answer, mut cells) = (NO_ANSWER, NO_CELLS);
        // SAFETY: every pointer is that of a slice with its length, of the cells or of the answer.
        *self = unsafe {
            raw::shpendorak_work(
                *self,
                committed.as_mut_ptr(),
                committed.len(),
                working.as_mut_ptr(),
                working.len(),
                class,
                &mut cells,
                &mut answer,
            )
        };
        answered(&answer, &cells)
    }

    /// Begins a query over the classes whose bits are set in a mask: an entry of it goes into each
    /// of their queues, after the confirmed and before the waiting.
    pub fn query(
        &mut self,
        committed: &[u32],
        working: &mut [u32],
        mask: u16,
    ) -> Result<Answer, Refusal> {
        let mut answer = NO_ANSWER;
        // SAFETY: every pointer is that of a slice with its length, or of the answer.
        *self = unsafe {
            raw::shpendorak_query(
                *self,
                committed.as_ptr(),
                committed.len(),
                working.as_mut_ptr(),
                working.len(),
                mask,
                &mut answer,
            )
        };
        answered(&answer, &NO_CELLS)
    }

    /// The committed cell of a class.
    pub fn read(
        &self,
        committed: &[u32],
        working: &[u32],
        class: u64,
        cell: u64,
    ) -> Result<Answer, Refusal> {
        let mut answer = NO_ANSWER;
        // SAFETY: every pointer is that of a slice with its length, or of the answer.
        unsafe {
            raw::shpendorak_read(
                *self,
                committed.as_ptr(),
                committed.len(),
                working.as_ptr(),
                working.len(),
                class,
                cell,
                &mut answer,
            )
        };
        answered(&answer, &NO_CELLS)
    }

    /// How many work calls a confirmed request still needs, or that it is unconfirmed, and how often
    /// it was put back.
    pub fn look(&self, committed: &[u32], working: &[u32], id: u64) -> Result<Answer, Refusal> {
        let mut answer = NO_ANSWER;
        // SAFETY: every pointer is that of a slice with its length, or of the answer.
        unsafe {
            raw::shpendorak_look(
                *self,
                committed.as_ptr(),
                committed.len(),
                working.as_ptr(),
                working.len(),
                id,
                &mut answer,
            )
        };
        answered(&answer, &NO_CELLS)
    }
}
