//! The ids of the last 256 confirmations: both sides of each edge.

use crate::help::{add, confirm, offer, put, through, FIRST_ID};
use model::answer::*;
use model::record::write;
use model::site::{Site, KEPT};

/// A site that took so many requests to their commits, with ids from `FIRST_ID` on.
fn after(confirmations: u32) -> Site {
    let mut site = Site::fresh();
    for _ in 0..confirmations {
        through(&mut site, 3, &[add(0, 1)]);
    }
    site.check();
    site
}

/// What an offer of an id answers; the site is left as it was.
fn offered(site: &Site, id: u32) -> Answer {
    offer(&mut site.clone(), id, 5, &[put(0, 1)])
}

#[test]
fn the_id_256_confirmations_ago_is_refused_and_the_one_before_it_taken() {
    for confirmations in [256, 257, 300, 511, 512, 513, 1_000] {
        let site = after(confirmations);
        let last = FIRST_ID + confirmations - 1;
        assert_eq!(offered(&site, last), Answer::Refused(ID_KEPT));
        assert_eq!(offered(&site, last - 255), Answer::Refused(ID_KEPT));
        let taken = Answer::Queued { id: last - 256, class: 5, place: 1, slot: 0 };
        assert_eq!(offered(&site, last - 256), taken);
    }
}

#[test]
fn before_256_confirmations_all_are_kept() {
    let site = after(255);
    assert_eq!(site.kept.len(), 255);
    assert_eq!(offered(&site, FIRST_ID), Answer::Refused(ID_KEPT));
    let taken = Answer::Queued { id: FIRST_ID + 255, class: 5, place: 1, slot: 0 };
    assert_eq!(offered(&site, FIRST_ID + 255), taken);
}

#[test]
fn a_queued_id_is_refused_with_4_whether_it_is_kept_or_not() {
    let mut site = after(10);
    offer(&mut site, 7, 0, &[put(0, 1)]);
    assert_eq!(offered(&site, 7), Answer::Refused(ID_QUEUED));
    confirm(&mut site, 7);
    assert_eq!(offered(&site, 7), Answer::Refused(ID_QUEUED));
    for _ in 0..KEPT {
        through(&mut site, 3, &[add(0, 1)]);
    }
    assert!(!site.kept.contains(&7));
    assert_eq!(offered(&site, 7), Answer::Refused(ID_QUEUED));
    site.work(0);
    assert_eq!(offered(&site, 7), Answer::Queued { id: 7, class: 5, place: 1, slot: 0 });
    site.check();
}

#[test]
fn a_broken_record_is_refused_with_3_and_a_kept_id_before_a_full_site() {
    let mut site = after(1);
    for id in 1..=128 {
        offer(&mut site, id, 0, &[put(0, 1)]);
    }
    assert_eq!(offered(&site, FIRST_ID), Answer::Refused(ID_KEPT));
    assert_eq!(offered(&site, FIRST_ID + 9), Answer::Refused(SITE_FULL));
    let mut record = write(&crate::help::request(FIRST_ID, 5, &[put(0, 1)]));
    record[6] = 1;
    assert_eq!(site.offer(&record), Answer::Refused(BAD_RECORD));
}

#[test]
fn an_id_taken_again_is_kept_under_its_new_number() {
    let mut site = after(300);
    assert!(!site.kept.contains(&FIRST_ID));
    offer(&mut site, FIRST_ID, 9, &[put(0, 1)]);
    confirm(&mut site, FIRST_ID);
    site.work(9);
    site.check();
    assert_eq!(offered(&site, FIRST_ID), Answer::Refused(ID_KEPT));
}
