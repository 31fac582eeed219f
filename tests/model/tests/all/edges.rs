//! Both sides of each edge.

use crate::help::{add, confirm, ids, need, offer, put, shift, through, work};
use model::answer::{Answer, BAD_RECORD, SITE_FULL};
use model::record::Op;
use model::site::Site;

/// A site whose class 0 has these committed first cells.
fn site_with(cells: &[u32]) -> Site {
    let mut site = Site::fresh();
    for (cell, &amount) in (0..).zip(cells) {
        through(&mut site, 0, &[put(cell, amount)]);
    }
    site
}

/// Carries a request of one operation through in class 0; whether it declined.
fn one(site: &mut Site, op: Op) -> bool {
    through(site, 0, &[op]) == 1
}

/// The first two committed cells of class 0.
fn two_cells(site: &Site) -> [u32; 2] {
    [site.classes[0].committed[0], site.classes[0].committed[1]]
}

/// A site with requests 1 to 4 of five puts each in class 2.
fn four_waiting() -> Site {
    let mut site = Site::fresh();
    for (id, place) in (1..=4).zip(1..) {
        let answer = offer(&mut site, id, 2, &[put(0, id); 5]);
        assert_eq!(answer, Answer::Queued { id, class: 2, place, slot: place as u8 - 1 });
    }
    site
}

#[test]
fn move_60_passes_at_100_and_then_declines() {
    let mut site = site_with(&[100, 0]);
    assert!(!one(&mut site, shift(0, 1, 60)));
    assert_eq!(two_cells(&site), [40, 60]);
    assert!(one(&mut site, shift(0, 1, 60)));
    assert_eq!(two_cells(&site), [40, 60]);
}

#[test]
fn move_of_all_there_is_passes_and_of_one_more_declines() {
    let mut site = site_with(&[100, 0]);
    assert!(one(&mut site, shift(0, 1, 101)));
    assert!(!one(&mut site, shift(0, 1, 100)));
    assert_eq!(two_cells(&site), [0, 100]);
}

#[test]
fn move_into_a_full_cell_declines_unless_it_moves_0() {
    let mut site = site_with(&[5, 4_294_967_295]);
    assert!(one(&mut site, shift(0, 1, 1)));
    assert!(!one(&mut site, shift(0, 1, 0)));
    assert_eq!(two_cells(&site), [5, 4_294_967_295]);
}

#[test]
fn move_fills_a_cell_to_the_brim() {
    let mut site = site_with(&[5, 4_294_967_293]);
    assert!(one(&mut site, shift(0, 1, 3)));
    assert!(!one(&mut site, shift(0, 1, 2)));
    assert_eq!(two_cells(&site), [3, 4_294_967_295]);
}

#[test]
fn add_1_to_the_largest_gives_0() {
    let mut site = site_with(&[4_294_967_295]);
    assert!(!one(&mut site, add(0, 1)));
    assert_eq!(site.read(0, 0), Answer::Value(0));
}

#[test]
fn need_passes_at_the_amount_and_declines_below() {
    assert!(!one(&mut site_with(&[5]), need(0, 5)));
    assert!(one(&mut site_with(&[4]), need(0, 5)));
    assert!(!one(&mut site_with(&[0]), need(0, 0)));
}

#[test]
fn a_declining_need_after_a_put_leaves_the_committed_cell() {
    let mut site = site_with(&[3]);
    assert_eq!(through(&mut site, 0, &[put(0, 8), need(0, 9), put(1, 7)]), 2);
    assert_eq!(two_cells(&site), [3, 0]);
    assert_eq!(through(&mut site, 0, &[put(0, 8), need(0, 8)]), 0);
    assert_eq!(two_cells(&site), [8, 0]);
}

#[test]
fn operations_after_a_decline_take_a_call_each_and_change_nothing() {
    let mut site = site_with(&[3]);
    offer(&mut site, 1, 0, &[put(0, 8), need(0, 9), put(0, 7), need(0, 9)]);
    let before = site.classes[0].committed;
    for done in 1..=3 {
        assert_eq!(site.work(0), Answer::Stepped { id: 1, done });
        assert_eq!(site.classes[0].working == before, done >= 2);
    }
    assert_eq!(site.work(0), Answer::Executed { id: 1 });
    let number = site.confirmations + 1;
    let answer = Answer::Committed { id: 1, number, mark: 2, slot: 0, backs: 0 };
    assert_eq!(site.confirm(1, number), answer);
    assert_eq!(site.classes[0].committed, before);
}

#[test]
fn the_mark_is_the_place_of_the_first_that_declines() {
    let site = site_with(&[4]);
    let mark = |ops: &[Op]| through(&mut site.clone(), 0, ops);
    assert_eq!(mark(&[need(0, 5)]), 1);
    assert_eq!(mark(&[need(0, 5), put(0, 5)]), 1);
    let [up, high] = [add(0, 1), need(0, 11)];
    assert_eq!(mark(&[up, up, up, up, up, up, high]), 7);
    assert_eq!(mark(&[up, need(0, 5), shift(0, 1, 6), up, high]), 3);
    assert_eq!(mark(&[up, up, up, up, up, up, need(0, 10)]), 0);
}

#[test]
fn confirming_the_fourth_behind_two_confirmed_puts_it_third() {
    let mut site = four_waiting();
    confirm(&mut site, 1);
    confirm(&mut site, 2);
    assert_eq!(confirm(&mut site, 4), Answer::Waiting { id: 4, w: 15, put_back: 0 });
    assert_eq!(ids(&site, 2), [1, 2, 4, 3]);
}

#[test]
fn confirming_the_fourth_of_four_waiting_makes_it_head() {
    let mut site = four_waiting();
    assert_eq!(work(&mut site, 2, 5), Answer::Executed { id: 1 });
    assert_eq!(confirm(&mut site, 4), Answer::Waiting { id: 4, w: 5, put_back: 1 });
    assert_eq!(ids(&site, 2), [4, 1, 2, 3]);
    assert_eq!(site.classes[2].working, site.classes[2].committed);
    assert!(site.entries().all(|entry| entry.done == 0));
}

#[test]
fn a_waiting_head_with_nothing_done_is_put_back_all_the_same() {
    let mut site = four_waiting();
    assert_eq!(confirm(&mut site, 2), Answer::Waiting { id: 2, w: 5, put_back: 1 });
    assert_eq!(ids(&site, 2), [2, 1, 3, 4]);
}

#[test]
fn a_head_put_back_is_not_declined_any_more() {
    let mut site = Site::fresh();
    offer(&mut site, 1, 0, &[need(0, 5), put(1, 1)]);
    offer(&mut site, 2, 0, &[put(0, 5)]);
    work(&mut site, 0, 2);
    assert_eq!(site.classes[0].request_at(0).mark, 1);
    assert_eq!(confirm(&mut site, 2), Answer::Waiting { id: 2, w: 1, put_back: 1 });
    assert_eq!(site.classes[0].request_at(1).mark, 0);
    work(&mut site, 0, 3);
    let answer = Answer::Committed { id: 1, number: 2, mark: 0, slot: 0, backs: 1 };
    assert_eq!(confirm(&mut site, 1), answer);
    assert_eq!(two_cells(&site), [5, 1]);
}

#[test]
fn confirming_an_active_head_keeps_what_is_done() {
    let mut site = four_waiting();
    assert_eq!(work(&mut site, 2, 2), Answer::Stepped { id: 1, done: 2 });
    assert_eq!(confirm(&mut site, 1), Answer::Waiting { id: 1, w: 3, put_back: 0 });
    assert_eq!(site.classes[2].request_at(0).done, 2);
    assert_eq!(site.classes[2].working[0], 1);
    assert_eq!(work(&mut site, 2, 2), Answer::Stepped { id: 1, done: 4 });
    let answer = Answer::Committed { id: 1, number: 1, mark: 0, slot: 0, backs: 0 };
    assert_eq!(site.work(2), answer);
}

#[test]
fn records_past_an_edge_are_refused() {
    let mut site = Site::fresh();
    let refused = Answer::Refused(BAD_RECORD);
    assert_eq!(offer(&mut site, 1, 0, &[]), refused);
    assert_eq!(offer(&mut site, 1, 16, &[put(0, 1)]), refused);
    assert_eq!(offer(&mut site, 1, 0, &[put(64, 1)]), refused);
    assert_eq!(offer(&mut site, 0, 0, &[put(0, 1)]), refused);
    assert_eq!(offer(&mut site, 1, 0, &[shift(5, 5, 1)]), refused);
    let seven = crate::help::request(1, 0, &[put(0, 1); 7]);
    let mut record = model::record::write(&seven);
    assert_eq!(site.offer(&record[..63]), refused);
    record[5] = 8;
    assert_eq!(site.offer(&record), refused);
    assert_eq!(site, Site::fresh());
}

#[test]
fn records_at_an_edge_are_taken() {
    let mut site = Site::fresh();
    let taken = |id, class, slot| Answer::Queued { id, class, place: 1, slot };
    assert_eq!(offer(&mut site, 1, 0, &[put(0, 1)]), taken(1, 0, 0));
    assert_eq!(offer(&mut site, 2, 1, &[put(0, 1); 7]), taken(2, 1, 1));
    assert_eq!(offer(&mut site, 3, 15, &[put(0, 1)]), taken(3, 15, 2));
    assert_eq!(offer(&mut site, 4, 2, &[put(63, 1)]), taken(4, 2, 3));
    assert_eq!(offer(&mut site, u32::MAX, 3, &[shift(63, 0, 1)]), taken(u32::MAX, 3, 4));
}

#[test]
fn the_129th_is_taken_after_a_commit_in_the_slot_just_freed() {
    let mut site = Site::fresh();
    for (id, slot) in (1..=128).zip(0..) {
        let class = slot % 16;
        let place = usize::from(slot / 16) + 1;
        let answer = offer(&mut site, id, class, &[put(0, id)]);
        assert_eq!(answer, Answer::Queued { id, class, place, slot });
    }
    assert_eq!(offer(&mut site, 129, 0, &[put(0, 1)]), Answer::Refused(SITE_FULL));
    confirm(&mut site, 70);
    let answer = Answer::Committed { id: 70, number: 1, mark: 0, slot: 69, backs: 0 };
    assert_eq!(site.work(5), answer);
    let answer = Answer::Queued { id: 129, class: 0, place: 9, slot: 69 };
    assert_eq!(offer(&mut site, 129, 0, &[put(0, 1)]), answer);
    assert_eq!(offer(&mut site, 130, 0, &[put(0, 1)]), Answer::Refused(SITE_FULL));
}

#[test]
fn a_class_may_hold_all_128_and_then_w_is_896() {
    let mut site = Site::fresh();
    for id in 1..=128 {
        offer(&mut site, id, 4, &[put(0, 1); 7]);
    }
    for (id, count) in (1..=127).zip(1..) {
        assert_eq!(confirm(&mut site, id), Answer::Waiting { id, w: 7 * count, put_back: 0 });
    }
    assert_eq!(confirm(&mut site, 128), Answer::Waiting { id: 128, w: 896, put_back: 0 });
    let answer = Answer::Committed { id: 128, number: 128, mark: 0, slot: 127, backs: 0 };
    assert_eq!(work(&mut site, 4, 896), answer);
}

#[test]
fn the_lowest_free_slot_is_taken() {
    let mut site = Site::fresh();
    for id in 1..=5 {
        offer(&mut site, id, 0, &[put(0, 1)]);
    }
    for id in [4, 2] {
        confirm(&mut site, id);
        site.work(0);
    }
    let slots = [6, 7, 8].map(|id| offer(&mut site, id, 1, &[put(0, 1)]));
    let taken = |id, place, slot| Answer::Queued { id, class: 1, place, slot };
    assert_eq!(slots, [taken(6, 1, 1), taken(7, 2, 3), taken(8, 3, 5)]);
}
