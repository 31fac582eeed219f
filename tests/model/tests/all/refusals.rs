//! The table of refusals: each number, its order, and the site left untouched.

use crate::help::{confirm, offer, put, request};
use model::answer::*;
use model::record::write;
use model::site::Site;

/// A site where 1 is confirmed and 2 waits in class 0, and 3 is executed in class 1.
fn site() -> Site {
    let mut site = Site::fresh();
    offer(&mut site, 1, 0, &[put(0, 1); 2]);
    offer(&mut site, 2, 0, &[put(0, 1); 2]);
    offer(&mut site, 3, 1, &[put(0, 1)]);
    confirm(&mut site, 1);
    site.work(0);
    site.work(1);
    site
}

/// A site with all 128 slots used by the ids 1 to 128.
fn full() -> Site {
    let mut site = Site::fresh();
    for id in 1..=128 {
        offer(&mut site, id, 0, &[put(0, 1)]);
    }
    site
}

/// A site that has taken all confirmations but still has 1 to 3 queued as above.
fn used_up() -> Site {
    let mut site = site();
    site.commits = u32::MAX - 1;
    site.confirmations = u32::MAX;
    site.kept = (1_000..1_256).collect();
    site.check();
    site
}

/// Asserts that a call is refused with a number and leaves the site as it was.
fn refused(mut site: Site, number: u8, call: impl Fn(&mut Site) -> Answer) {
    let before = site.clone();
    assert_eq!(call(&mut site), Answer::Refused(number));
    assert_eq!(site, before);
}

/// A record of an id that breaks a rule.
fn broken(id: u32) -> [u8; 64] {
    write(&request(id, 16, &[put(0, 1)]))
}

/// A valid record of an id.
fn valid(id: u32) -> [u8; 64] {
    write(&request(id, 0, &[put(0, 1)]))
}

#[test]
fn offer_is_refused_with_3_before_4_before_5() {
    refused(site(), 3, |site| site.offer(&broken(9)));
    refused(site(), 3, |site| site.offer(&valid(9)[..63]));
    refused(site(), 3, |site| site.offer(&broken(1)));
    refused(full(), 3, |site| site.offer(&broken(200)));
    refused(full(), 3, |site| site.offer(&broken(1)));
    refused(site(), 4, |site| site.offer(&valid(1)));
    refused(site(), 4, |site| site.offer(&valid(2)));
    refused(site(), 4, |site| site.offer(&write(&request(3, 9, &[put(0, 1)]))));
    refused(full(), 4, |site| site.offer(&valid(128)));
    refused(full(), 5, |site| site.offer(&valid(129)));
}

#[test]
fn confirm_is_refused_with_6_before_all_others() {
    for number in [0, 1, u32::MAX] {
        for id in [0, 1, 2, 3, 9] {
            refused(used_up(), 6, |site| site.confirm(id, number));
        }
    }
}

#[test]
fn the_last_number_of_all_is_taken() {
    let mut site = used_up();
    site.commits -= 1;
    site.confirmations -= 1;
    site.check();
    let answer = Answer::Committed { id: 3, number: u32::MAX, mark: 0, slot: 2, backs: 0 };
    assert_eq!(site.confirm(3, u32::MAX), answer);
    site.check();
    refused(site, 6, |site| site.confirm(2, 0));
}

#[test]
fn confirm_is_refused_with_7_before_8_and_9() {
    for number in [0, 1, 3, u32::MAX] {
        for id in [0, 1, 2, 3, 9] {
            refused(site(), 7, |site| site.confirm(id, number));
        }
    }
    refused(site(), 8, |site| site.confirm(9, 2));
    refused(site(), 8, |site| site.confirm(0, 2));
    refused(site(), 9, |site| site.confirm(1, 2));
}

#[test]
fn work_is_refused_with_10_before_11() {
    for class in 16..=255 {
        refused(site(), 10, |site| site.work(class));
    }
    refused(site(), 11, |site| site.work(1));
    for class in 2..=15 {
        refused(site(), 11, |site| site.work(class));
    }
}

#[test]
fn read_is_refused_with_10_before_12() {
    for class in 0..=255 {
        for cell in [0, 63, 64, 255] {
            match (class <= 15, cell <= 63) {
                (true, true) => assert!(matches!(site().read(class, cell), Answer::Value(_))),
                (true, false) => refused(site(), 12, |site| site.read(class, cell)),
                (false, _) => refused(site(), 10, |site| site.read(class, cell)),
            }
        }
    }
}

#[test]
fn look_answers_w_or_unconfirmed_or_8() {
    let site = site();
    assert_eq!(site.look(1), Answer::ToDo { w: 1, backs: 0 });
    assert_eq!(site.look(2), Answer::Unconfirmed { backs: 0 });
    assert_eq!(site.look(3), Answer::Unconfirmed { backs: 0 });
    assert_eq!(site.look(9), Answer::Refused(ID_NOT_QUEUED));
    assert_eq!(site.look(0), Answer::Refused(ID_NOT_QUEUED));
}

#[test]
fn an_id_that_has_committed_is_kept_and_not_taken_again() {
    let mut site = site();
    refused(site.clone(), ID_QUEUED, |site| offer(site, 3, 5, &[put(0, 1)]));
    confirm(&mut site, 3);
    refused(site, ID_KEPT, |site| offer(site, 3, 5, &[put(0, 1)]));
}
