//! The layout of the structs: tables written by hand, held against Rust's view of the structs and
//! against the bytes that the archive writes.
//!
//! The archive is called here with a site of plain bytes, so that what it writes is found at the
//! table's bytes or not at all. After each call every byte of every field is compared; bytes
//! between fields are nobody's.

mod hosted;
mod table;

use hosted::{Hosted, OLD_COUNT};
use shpendorak::raw::{CLASSES, QUERIES, SLOTS};

#[test]
fn every_slot_and_every_queue_place_is_where_the_table_says() {
    for class in 0..CLASSES {
        let mut hosted = Hosted::fresh();
        for slot in 0..SLOTS {
            hosted.offer(slot, class);
        }
    }
}

#[test]
fn numbers_counts_done_and_mark_are_where_the_table_says() {
    let (class, count) = (5, OLD_COUNT);
    let mut hosted = Hosted::fresh();
    hosted.raise_counts(count);
    for slot in 0..SLOTS {
        hosted.offer(slot, class);
    }
    for slot in 0..SLOTS {
        hosted.confirm(slot, class, count + 1 + slot as u32);
    }
    for slot in 0..SLOTS {
        hosted.work_off(slot, class, SLOTS - slot, count + 1 + slot as u32);
    }
}

/// Of each two neighbours the second overtakes the first: in every even slot, then in every odd one.
#[test]
fn times_put_back_are_where_the_table_says() {
    let (class, count) = (9, OLD_COUNT);
    for first in 0..2 {
        let mut hosted = Hosted::fresh();
        hosted.raise_counts(count);
        for slot in 0..SLOTS {
            hosted.offer(slot, class);
            hosted.put_backs(slot);
        }
        let mut order: Vec<usize> = (0..SLOTS).collect();
        order[first..].chunks_exact_mut(2).for_each(|pair| pair.reverse());
        for (done, slot) in order.into_iter().enumerate() {
            let number = count + 1 + done as u32;
            if slot > done {
                hosted.overtake(done, slot, class, number);
            } else {
                hosted.confirm(slot, class, number);
            }
            hosted.work_off(slot, class, SLOTS - done, number);
        }
    }
}

/// All queries are begun, one after another, and then read, class by class.
#[test]
fn queries_and_their_count_are_where_the_table_says() {
    let mut hosted = Hosted::fresh();
    hosted.raise_counts(OLD_COUNT);
    for place in 1..=QUERIES {
        hosted.query(place);
    }
    for class in 0..CLASSES {
        for place in 1..=QUERIES {
            hosted.read_entry(place, class, QUERIES + 1 - place);
        }
    }
}
