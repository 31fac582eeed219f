//! How often a request was put back: both sides of each edge.

use crate::help::{add, confirm, ids, offer, put, through, work, FIRST_ID};
use model::answer::{Answer, CONFIRMED_ALREADY, ID_NOT_QUEUED, WRONG_NUMBER};
use model::site::{Site, KEPT};

/// A site with requests 1 to 4 of two puts each in class 2.
fn four_waiting() -> Site {
    let mut site = Site::fresh();
    for id in 1..=4 {
        offer(&mut site, id, 2, &[put(0, id); 2]);
    }
    site
}

/// The same after 4 and 3 were confirmed before 1 and committed: 1 was put back twice.
fn put_back_twice() -> Site {
    let mut site = four_waiting();
    for id in [4, 3] {
        work(&mut site, 2, 1);
        assert!(matches!(confirm(&mut site, id), Answer::Waiting { put_back: 1, .. }));
        work(&mut site, 2, 2);
    }
    site.check();
    site
}

/// The count of each queued request of a class, head first.
fn counts(site: &Site, class: usize) -> Vec<u64> {
    let queue = site.classes[class].queue.iter();
    queue.map(|item| item.request().expect("a request").backs).collect()
}

#[test]
fn the_count_is_0_at_the_offer() {
    let site = four_waiting();
    assert_eq!(counts(&site, 2), [0; 4]);
    assert_eq!(site.look(1), Answer::Unconfirmed { backs: 0 });
}

#[test]
fn each_put_back_counts_one_and_no_other_request() {
    let mut site = four_waiting();
    offer(&mut site, 5, 6, &[put(0, 1)]);
    work(&mut site, 2, 1);
    confirm(&mut site, 4);
    assert_eq!((ids(&site, 2), counts(&site, 2)), (vec![4, 1, 2, 3], vec![0, 1, 0, 0]));
    assert_eq!(site.look(1), Answer::Unconfirmed { backs: 1 });
    assert_eq!(counts(&site, 6), [0]);
    let site = put_back_twice();
    assert_eq!((ids(&site, 2), counts(&site, 2)), (vec![1, 2], vec![2, 0]));
    assert_eq!(site.look(1), Answer::Unconfirmed { backs: 2 });
}

#[test]
fn a_put_back_with_nothing_done_counts_too() {
    let mut site = four_waiting();
    assert_eq!(confirm(&mut site, 2), Answer::Waiting { id: 2, w: 2, put_back: 1 });
    assert_eq!(site.look(1), Answer::Unconfirmed { backs: 1 });
}

#[test]
fn an_executed_head_put_back_counts_too() {
    let mut site = four_waiting();
    assert_eq!(work(&mut site, 2, 2), Answer::Executed { id: 1 });
    assert_eq!(confirm(&mut site, 2), Answer::Waiting { id: 2, w: 2, put_back: 1 });
    assert_eq!(site.look(1), Answer::Unconfirmed { backs: 1 });
}

#[test]
fn the_count_is_kept_when_the_request_is_confirmed_and_moves() {
    let mut site = put_back_twice();
    offer(&mut site, 6, 2, &[put(0, 6)]);
    assert_eq!(confirm(&mut site, 6), Answer::Waiting { id: 6, w: 1, put_back: 1 });
    assert_eq!(confirm(&mut site, 2), Answer::Waiting { id: 2, w: 3, put_back: 0 });
    assert_eq!(confirm(&mut site, 1), Answer::Waiting { id: 1, w: 5, put_back: 0 });
    assert_eq!((ids(&site, 2), counts(&site, 2)), (vec![6, 2, 1], vec![0, 0, 3]));
    assert_eq!(site.look(1), Answer::ToDo { w: 5, backs: 3 });
    let answer = Answer::Committed { id: 1, number: 5, mark: 0, slot: 0, backs: 3 };
    assert_eq!(work(&mut site, 2, 5), answer);
}

#[test]
fn a_request_that_was_put_back_keeps_its_count_when_it_moves_forward() {
    let mut site = four_waiting();
    confirm(&mut site, 4);
    site.check();
    assert_eq!(confirm(&mut site, 1), Answer::Waiting { id: 1, w: 4, put_back: 0 });
    assert_eq!((ids(&site, 2), counts(&site, 2)), (vec![4, 1, 2, 3], vec![0, 1, 0, 0]));
    assert_eq!(site.look(1), Answer::ToDo { w: 4, backs: 1 });
}

#[test]
fn the_request_that_is_itself_confirmed_does_not_count() {
    let mut site = put_back_twice();
    work(&mut site, 2, 1);
    assert_eq!(confirm(&mut site, 1), Answer::Waiting { id: 1, w: 1, put_back: 0 });
    assert_eq!(site.look(1), Answer::ToDo { w: 1, backs: 2 });
}

#[test]
fn the_executed_head_that_commits_at_its_confirmation_does_not_count() {
    let mut site = put_back_twice();
    assert_eq!(work(&mut site, 2, 2), Answer::Executed { id: 1 });
    let answer = Answer::Committed { id: 1, number: 3, mark: 0, slot: 0, backs: 2 };
    assert_eq!(confirm(&mut site, 1), answer);
    assert_eq!(site.look(2), Answer::Unconfirmed { backs: 0 });
}

#[test]
fn a_confirmed_head_never_counts() {
    let mut site = four_waiting();
    confirm(&mut site, 1);
    for id in [3, 4, 2] {
        assert!(matches!(confirm(&mut site, id), Answer::Waiting { put_back: 0, .. }));
        assert_eq!(counts(&site, 2), [0; 4]);
    }
}

#[test]
fn a_refused_confirmation_does_not_count() {
    let mut site = put_back_twice();
    assert_eq!(site.confirm(2, 4), Answer::Refused(WRONG_NUMBER));
    assert_eq!(site.confirm(9, 3), Answer::Refused(ID_NOT_QUEUED));
    assert_eq!(counts(&site, 2), [2, 0]);
    confirm(&mut site, 2);
    assert_eq!(site.confirm(2, 4), Answer::Refused(CONFIRMED_ALREADY));
    assert_eq!(counts(&site, 2), [0, 3]);
}

#[test]
fn an_id_used_again_begins_at_0() {
    let mut site = put_back_twice();
    confirm(&mut site, 1);
    work(&mut site, 2, 2);
    for _ in 0..KEPT {
        through(&mut site, 3, &[add(0, 1)]);
    }
    let answer = Answer::Queued { id: 1, class: 2, place: 2, slot: 0 };
    assert_eq!(offer(&mut site, 1, 2, &[put(0, 1)]), answer);
    assert_eq!(site.look(1), Answer::Unconfirmed { backs: 0 });
}

/// Each confirmation may put the same request back, and none may do so twice.
#[test]
fn a_count_reaches_the_count_of_confirmations_and_not_more() {
    let mut site = Site::fresh();
    offer(&mut site, 1, 2, &[put(0, 1)]);
    for backs in 1..=300 {
        let id = FIRST_ID + site.confirmations;
        offer(&mut site, id, 2, &[add(1, 1)]);
        assert_eq!(confirm(&mut site, id), Answer::Waiting { id, w: 1, put_back: 1 });
        assert_eq!(site.look(1), Answer::Unconfirmed { backs });
        assert_eq!(u64::from(site.confirmations), backs);
        site.check();
        site.work(2);
    }
    site.classes[2].request_at(0).backs += 1;
    assert!(site.breach().is_some());
}
