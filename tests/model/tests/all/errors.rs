//! The errors that look right: each of these tests fails with one of them.

use crate::help::{add, confirm, ids, offer, put, work};
use model::answer::{Answer, SITE_FULL};
use model::site::Site;

/// Freeing the slot when executed.
#[test]
fn an_executed_request_keeps_its_slot() {
    let mut site = Site::fresh();
    offer(&mut site, 1, 0, &[put(0, 1)]);
    assert_eq!(site.work(0), Answer::Executed { id: 1 });
    let answer = Answer::Queued { id: 2, class: 1, place: 1, slot: 1 };
    assert_eq!(offer(&mut site, 2, 1, &[put(0, 1)]), answer);
    for id in 3..=128 {
        offer(&mut site, id, 1, &[put(0, 1)]);
    }
    assert_eq!(offer(&mut site, 129, 1, &[put(0, 1)]), Answer::Refused(SITE_FULL));
}

/// Putting back the request that is itself being confirmed.
#[test]
fn the_request_being_confirmed_is_not_put_back() {
    let mut site = Site::fresh();
    offer(&mut site, 1, 0, &[add(0, 1), add(0, 1), add(0, 1)]);
    assert_eq!(work(&mut site, 0, 2), Answer::Stepped { id: 1, done: 2 });
    assert_eq!(confirm(&mut site, 1), Answer::Waiting { id: 1, w: 1, put_back: 0 });
    assert_eq!(site.classes[0].working[0], 2);
    let answer = Answer::Committed { id: 1, number: 1, mark: 0, slot: 0, backs: 0 };
    assert_eq!(site.work(0), answer);
    assert_eq!(site.read(0, 0), Answer::Value(3));
}

/// The same where the head has nothing done.
#[test]
fn a_head_being_confirmed_with_nothing_done_is_not_put_back() {
    let mut site = Site::fresh();
    offer(&mut site, 1, 0, &[add(0, 1)]);
    offer(&mut site, 2, 0, &[add(0, 1)]);
    assert_eq!(confirm(&mut site, 1), Answer::Waiting { id: 1, w: 1, put_back: 0 });
}

/// Moving the confirmed request to the very front.
#[test]
fn the_confirmed_request_stays_behind_earlier_confirmed_ones() {
    let mut site = Site::fresh();
    for id in 1..=3 {
        offer(&mut site, id, 0, &[put(0, id), put(1, id)]);
    }
    confirm(&mut site, 3);
    assert_eq!(confirm(&mut site, 2), Answer::Waiting { id: 2, w: 4, put_back: 0 });
    assert_eq!(ids(&site, 0), [3, 2, 1]);
    let answer = Answer::Committed { id: 3, number: 1, mark: 0, slot: 2, backs: 0 };
    assert_eq!(work(&mut site, 0, 2), answer);
}

/// Letting a put-back request keep its count of done operations.
#[test]
fn a_request_put_back_starts_over() {
    let mut site = Site::fresh();
    offer(&mut site, 1, 0, &[put(0, 10), add(1, 5)]);
    offer(&mut site, 2, 0, &[put(0, 20)]);
    assert_eq!(site.work(0), Answer::Stepped { id: 1, done: 1 });
    assert_eq!(confirm(&mut site, 2), Answer::Waiting { id: 2, w: 1, put_back: 1 });
    site.work(0);
    assert_eq!(site.work(0), Answer::Stepped { id: 1, done: 1 });
    assert_eq!(site.work(0), Answer::Executed { id: 1 });
    confirm(&mut site, 1);
    assert_eq!([site.read(0, 0), site.read(0, 1)], [Answer::Value(10), Answer::Value(5)]);
}

/// Ordering across classes.
#[test]
fn the_second_may_commit_before_the_first_in_another_class() {
    let mut site = Site::fresh();
    offer(&mut site, 1, 0, &[put(0, 1)]);
    offer(&mut site, 2, 1, &[put(0, 2)]);
    confirm(&mut site, 1);
    assert_eq!(confirm(&mut site, 2), Answer::Waiting { id: 2, w: 1, put_back: 0 });
    let answer = Answer::Committed { id: 2, number: 2, mark: 0, slot: 1, backs: 0 };
    assert_eq!(site.work(1), answer);
    let answer = Answer::Committed { id: 1, number: 1, mark: 0, slot: 0, backs: 0 };
    assert_eq!(site.work(0), answer);
}

/// The same where the second commits in its own confirm call.
#[test]
fn an_executed_second_commits_when_confirmed_though_the_first_has_not() {
    let mut site = Site::fresh();
    offer(&mut site, 1, 0, &[put(0, 1)]);
    offer(&mut site, 2, 1, &[put(0, 2)]);
    site.work(1);
    confirm(&mut site, 1);
    let answer = Answer::Committed { id: 2, number: 2, mark: 0, slot: 1, backs: 0 };
    assert_eq!(confirm(&mut site, 2), answer);
}

/// Reading working cells.
#[test]
fn a_read_answers_the_committed_cell() {
    let mut site = Site::fresh();
    offer(&mut site, 1, 0, &[put(0, 9), put(1, 9)]);
    site.work(0);
    assert_eq!(site.read(0, 0), Answer::Value(0));
    site.work(0);
    assert_eq!(site.read(0, 0), Answer::Value(0));
    confirm(&mut site, 1);
    assert_eq!(site.read(0, 0), Answer::Value(9));
}
