//! Request [6]: a query over several classes, by section 6 of report 325.

use crate::help::{add, confirm, offer, put, through, work};
use model::answer::*;
use model::record::CELLS;
use model::site::{Cells, Site};

/// The classes 2 and 5.
const TWO_AND_FIVE: u16 = 1 << 2 | 1 << 5;

/// The 64 cells with one of them set.
fn cells_with(cell: usize, amount: u32) -> Cells {
    let mut cells = [0; CELLS];
    cells[cell] = amount;
    cells
}

/// What a work call that reads an entry answers.
fn read(place: u8, class: u8, cells: Cells) -> Answer {
    Answer::Read { place, class, cells }
}

#[test]
fn an_entry_stands_after_the_confirmed_and_before_the_waiting() {
    let mut site = Site::fresh();
    for id in 1..=3 {
        offer(&mut site, id, 2, &[add(0, id), add(0, id)]);
    }
    confirm(&mut site, 1);
    assert_eq!(site.query(TWO_AND_FIVE), Answer::Begun { place: 1 });
    assert_eq!(site.work(5), read(1, 5, [0; CELLS]));
    assert_eq!(
        work(&mut site, 2, 2),
        Answer::Committed { id: 1, number: 1, mark: 0, slot: 0, backs: 0 }
    );
    assert_eq!(site.work(2), read(1, 2, cells_with(0, 2)));
    assert_eq!(site.work(2), Answer::Stepped { id: 2, done: 1 });
    assert!(!site.is_open(1));
}

#[test]
fn a_waiting_head_is_put_back_and_counts_it() {
    let mut site = Site::fresh();
    offer(&mut site, 1, 2, &[put(0, 9)]);
    assert_eq!(site.work(2), Answer::Executed { id: 1 });
    assert_eq!(site.query(TWO_AND_FIVE), Answer::Begun { place: 1 });
    assert_eq!(site.look(1), Answer::Unconfirmed { backs: 1 });
    assert_eq!(site.work(2), read(1, 2, [0; CELLS]));
    assert_eq!(site.work(2), Answer::Executed { id: 1 });
    site.check();
}

#[test]
fn a_confirmed_head_goes_on_with_what_it_has_done() {
    let mut site = Site::fresh();
    offer(&mut site, 1, 2, &[add(0, 1), add(0, 1)]);
    confirm(&mut site, 1);
    assert_eq!(site.work(2), Answer::Stepped { id: 1, done: 1 });
    site.query(1 << 2);
    assert_eq!(site.look(1), Answer::ToDo { w: 1, backs: 0 });
    assert_eq!(site.work(2), Answer::Committed { id: 1, number: 1, mark: 0, slot: 0, backs: 0 });
    assert_eq!(site.work(2), read(1, 2, cells_with(0, 2)));
}

#[test]
fn an_entry_counts_one_for_those_behind_it_and_none_for_those_before() {
    let mut site = Site::fresh();
    offer(&mut site, 1, 2, &[add(0, 1), add(0, 1)]);
    offer(&mut site, 2, 2, &[add(0, 1)]);
    confirm(&mut site, 1);
    site.query(1 << 2);
    site.query(1 << 2);
    assert_eq!(site.look(1), Answer::ToDo { w: 2, backs: 0 });
    assert_eq!(confirm(&mut site, 2), Answer::Waiting { id: 2, w: 5, put_back: 0 });
    assert_eq!(
        offer(&mut site, 3, 2, &[put(0, 0)]),
        Answer::Queued { id: 3, class: 2, place: 5, slot: 2 }
    );
}

#[test]
fn all_entries_show_one_point_of_the_definitive_order() {
    let mut site = Site::fresh();
    through(&mut site, 2, &[put(0, 10)]);
    offer(&mut site, 1, 5, &[put(0, 20)]);
    offer(&mut site, 2, 2, &[put(0, 11)]);
    confirm(&mut site, 1);
    assert_eq!(site.query(TWO_AND_FIVE), Answer::Begun { place: 1 });
    confirm(&mut site, 2);
    assert_eq!(site.work(2), read(1, 2, cells_with(0, 10)));
    assert_eq!(site.work(2), Answer::Committed { id: 2, number: 3, mark: 0, slot: 1, backs: 1 });
    assert_eq!(site.work(5), Answer::Committed { id: 1, number: 2, mark: 0, slot: 0, backs: 0 });
    assert_eq!(site.work(5), read(1, 5, cells_with(0, 20)));
}

#[test]
fn a_query_takes_the_lowest_free_place_and_keeps_it_until_its_last_entry_is_read() {
    let mut site = Site::fresh();
    for place in 1..=8 {
        assert_eq!(site.query(TWO_AND_FIVE), Answer::Begun { place });
    }
    assert_eq!(site.query(1), Answer::Refused(QUERIES_OPEN));
    assert_eq!(site.work(5), read(1, 5, [0; CELLS]));
    assert_eq!(site.query(1), Answer::Refused(QUERIES_OPEN));
    for place in 1..=3 {
        assert_eq!(site.work(2), read(place, 2, [0; CELLS]));
    }
    assert_eq!(site.work(5), read(2, 5, [0; CELLS]));
    assert_eq!(site.query(u16::MAX), Answer::Begun { place: 1 });
    assert_eq!(site.query(1), Answer::Begun { place: 2 });
    assert_eq!(site.query(1), Answer::Refused(QUERIES_OPEN));
    site.check();
}

#[test]
fn refusals_come_in_their_order() {
    let mut site = Site::fresh();
    assert_eq!(site.query(0), Answer::Refused(EMPTY_MASK));
    site.queries = u32::MAX;
    assert_eq!(site.query(0), Answer::Refused(EMPTY_MASK));
    assert_eq!(site.query(1), Answer::Refused(QUERIES_USED_UP));
    site.queries = u32::MAX - 8;
    for place in 1..=8 {
        assert_eq!(site.query(1), Answer::Begun { place });
    }
    assert_eq!(site.queries, u32::MAX);
    assert_eq!(site.query(0), Answer::Refused(EMPTY_MASK));
    assert_eq!(site.query(1), Answer::Refused(QUERIES_OPEN));
}

#[test]
fn w_reaches_904_and_a_queue_136() {
    let mut site = Site::fresh();
    let seven = [add(0, 1); 7];
    for id in 1..=128 {
        offer(&mut site, id, 15, &seven);
    }
    for id in 1..=127 {
        confirm(&mut site, id);
    }
    for place in 1..=8 {
        assert_eq!(site.query(1 << 15), Answer::Begun { place });
    }
    assert_eq!(site.classes[15].queue.len(), 136);
    assert_eq!(confirm(&mut site, 128), Answer::Waiting { id: 128, w: 904, put_back: 0 });
    assert_eq!(
        work(&mut site, 15, 904),
        Answer::Committed { id: 128, number: 128, mark: 0, slot: 127, backs: 0 }
    );
}

#[test]
fn an_executed_head_that_a_query_put_back_does_not_commit_at_its_confirmation() {
    let mut site = Site::fresh();
    offer(&mut site, 1, 2, &[put(0, 9)]);
    work(&mut site, 2, 1);
    site.query(1 << 2);
    assert_eq!(confirm(&mut site, 1), Answer::Waiting { id: 1, w: 2, put_back: 0 });
    assert_eq!(site.work(2), read(1, 2, [0; CELLS]));
    assert_eq!(site.work(2), Answer::Committed { id: 1, number: 1, mark: 0, slot: 0, backs: 1 });
}
