//! The refusals by the wrapper, under their numbers and in words; a refusal changes nothing.

use shpendorak::raw::{NUMBERS, shpendorak_fresh};
use shpendorak::{Answer, CELLS, RUN_LENGTH, Refusal, Site, answered};

/// A site with its cells.
struct Hosted {
    site: Site,
    committed: Vec<u32>,
    working: Vec<u32>,
}

/// What a call gives.
type Given = Result<Answer, Refusal>;

impl Hosted {
    /// A fresh site.
    fn fresh() -> Hosted {
        let (mut committed, mut working) = (vec![1; RUN_LENGTH], vec![1; RUN_LENGTH]);
        let site = Site::fresh(&mut committed, &mut working).expect("both runs are right");
        assert!(committed.iter().chain(&working).all(|cell| *cell == 0));
        Hosted { site, committed, working }
    }

    /// Offers a put of 1 into cell 0.
    fn offer(&mut self, id: u8, class: u8) -> Given {
        let mut booking = [0; 64];
        [booking[0], booking[4], booking[5], booking[8], booking[12]] = [id, class, 1, 1, 1];
        self.site.offer(&self.committed, &self.working, &booking)
    }

    /// Confirms an id under a number.
    fn confirm(&mut self, id: u64, number: u64) -> Given {
        self.site.confirm(&mut self.committed, &mut self.working, id, number)
    }

    /// Works for a class.
    fn work(&mut self, class: u64) -> Given {
        self.site.work(&mut self.committed, &mut self.working, class)
    }

    /// Begins a query.
    fn query(&mut self, mask: u16) -> Given {
        self.site.query(&self.committed, &mut self.working, mask)
    }

    /// Reads a cell.
    fn read(&self, class: u64, cell: u64) -> Given {
        self.site.read(&self.committed, &self.working, class, cell)
    }

    /// Looks at an id.
    fn look(&self, id: u64) -> Given {
        self.site.look(&self.committed, &self.working, id)
    }
}

#[test]
fn numbers_and_words_are_those_of_document_01() {
    let shown: Vec<String> = (0..=u8::MAX.into())
        .filter_map(Refusal::numbered)
        .map(|refusal| refusal.to_string())
        .collect();
    assert_eq!(
        shown,
        [
            "refused 1: a run of cells is not 1,024 long",
            "refused 2: the site is not sound",
            "refused 3: the record is not 64 bytes or breaks a rule",
            "refused 4: the id is queued",
            "refused 5: 128 requests are queued",
            "refused 6: 4,294,967,295 confirmations were taken",
            "refused 7: the number is not the count of confirmations plus 1",
            "refused 8: the id is not queued",
            "refused 9: the request is confirmed already",
            "refused 10: the class is above 15",
            "refused 11: the queue is empty, or its head is executed",
            "refused 12: the cell is above 63",
            "refused 14: the id is among the last 256 confirmed",
            "refused 17: the mask names no class",
            "refused 18: 8 queries are open",
            "refused 24: 4,294,967,295 queries were begun",
        ]
    );
}

#[test]
fn each_refusal_comes_from_a_call() {
    let mut hosted = Hosted::fresh();
    assert_eq!(hosted.offer(0, 3), Err(Refusal::BadRecord));
    assert_eq!(hosted.offer(7, 3), Ok(Answer::Queued { id: 7, class: 3, place: 1, slot: 0 }));
    assert_eq!(hosted.offer(7, 4), Err(Refusal::IdQueued));
    assert_eq!(hosted.look(7), Ok(Answer::Unconfirmed { backs: 0 }));
    assert_eq!(hosted.look(7 + (1 << 32)), Err(Refusal::IdNotQueued));
    assert_eq!(hosted.confirm(7, 2), Err(Refusal::WrongNumber));
    assert_eq!(hosted.confirm(8, 1), Err(Refusal::IdNotQueued));
    assert_eq!(hosted.confirm(7, 1), Ok(Answer::Waiting { id: 7, w: 1, put_back: 0 }));
    assert_eq!(hosted.confirm(7, 2), Err(Refusal::ConfirmedAlready));
    assert_eq!(hosted.look(7), Ok(Answer::ToDo { w: 1, backs: 0 }));
    assert_eq!(hosted.work(16), Err(Refusal::NoSuchClass));
    assert_eq!(hosted.work(3 + 256), Err(Refusal::NoSuchClass));
    assert_eq!(hosted.work(4), Err(Refusal::NothingToDo));
    assert_eq!(hosted.read(3, 64), Err(Refusal::NoSuchCell));
    let committed = Answer::Committed { id: 7, number: 1, mark: 0, slot: 0, backs: 0 };
    assert_eq!(hosted.work(3), Ok(committed));
    assert_eq!(hosted.read(3, 0), Ok(Answer::Value(1)));
    assert_eq!(hosted.offer(7, 4), Err(Refusal::IdKept));
}

#[test]
fn a_full_site_and_the_last_number_refuse() {
    let mut hosted = Hosted::fresh();
    for id in 1..=128 {
        hosted.offer(id, 15).expect("a slot is free");
    }
    assert_eq!(hosted.offer(129, 0), Err(Refusal::SiteFull));
    (hosted.site.confirmations, hosted.site.commits) = (u32::MAX, u32::MAX);
    hosted.site.kept = std::array::from_fn(|place| 1_000 + place as u32);
    assert_eq!(hosted.confirm(1, 1 << 32), Err(Refusal::NumbersUsedUp));
}

#[test]
fn wrong_cells_and_unsound_sites_are_refused_and_left() {
    let mut hosted = Hosted::fresh();
    hosted.offer(7, 3).expect("the record is valid");
    hosted.working.push(0);
    let before = hosted.site;
    assert_eq!(hosted.offer(8, 3), Err(Refusal::WrongCells));
    hosted.working.pop();
    hosted.site.low = 0;
    let damaged = hosted.site;
    assert_eq!(hosted.offer(8, 3), Err(Refusal::Unsound));
    assert_eq!(hosted.site, damaged);
    hosted.site = before;
    assert_eq!(hosted.work(3), Ok(Answer::Executed { id: 7 }));
    assert_eq!(Site::fresh(&mut hosted.committed[1..], &mut []), Err(Refusal::WrongCells));
}

#[test]
fn a_refused_start_hands_back_an_empty_site() {
    let Hosted { site: empty, mut committed, mut working } = Hosted::fresh();
    working.push(1);
    let mut answer = [u64::MAX; NUMBERS];
    let (c, w) = (committed.as_mut_ptr(), working.as_mut_ptr());
    // SAFETY: both runs are lent with their lengths, the answer has six numbers.
    let site = unsafe { shpendorak_fresh(c, committed.len(), w, working.len(), &mut answer) };
    assert_eq!(site, empty);
    assert_eq!(answered(&answer, &[0; CELLS]), Err(Refusal::WrongCells));
    assert_eq!(working.last(), Some(&1));
}

#[test]
fn a_request_says_how_often_it_was_put_back() {
    let mut hosted = Hosted::fresh();
    for id in [7, 8, 9] {
        hosted.offer(id, 3).expect("a slot is free");
    }
    for (id, number) in [(9, 1), (8, 2)] {
        let put_back = Answer::Waiting { id, w: 1, put_back: 7 };
        assert_eq!(hosted.confirm(id.into(), number.into()), Ok(put_back));
        assert_eq!(hosted.look(7), Ok(Answer::Unconfirmed { backs: number.into() }));
        let committed = Answer::Committed { id, number, mark: 0, slot: id - 7, backs: 0 };
        assert_eq!(hosted.work(3), Ok(committed));
    }
    assert_eq!(hosted.confirm(7, 3), Ok(Answer::Waiting { id: 7, w: 1, put_back: 0 }));
    assert_eq!(hosted.look(7), Ok(Answer::ToDo { w: 1, backs: 2 }));
    let committed = Answer::Committed { id: 7, number: 3, mark: 0, slot: 0, backs: 2 };
    assert_eq!(hosted.work(3), Ok(committed));
}

/// With so many requests offered after it and confirmed before it, or queries of its class that begin
/// while it waits, a request is put back exactly so often, and told so by its slot, look and commit.
#[test]
fn a_request_is_put_back_as_often_as_it_is_overtaken_and_meets_queries() {
    for misfortunes in ["o", "q", "oo", "qq", "oq", "qo", "ooo", "qqq", "oqo", "qoq"] {
        let mut hosted = Hosted::fresh();
        hosted.offer(7, 3).expect("a slot is free");
        let mut number = 0;
        for (times, misfortune) in (1..).zip(misfortunes.chars()) {
            assert_eq!(hosted.query(0), Err(Refusal::EmptyMask));
            assert_eq!(hosted.confirm(7, 9), Err(Refusal::WrongNumber));
            if misfortune == 'o' {
                number += 1;
                hosted.offer(7 + times, 3).expect("a slot is free");
                let overtakes = Answer::Waiting { id: 7 + u32::from(times), w: 1, put_back: 7 };
                assert_eq!(hosted.confirm(7 + u64::from(times), number), Ok(overtakes));
            } else {
                assert_eq!(hosted.query(1 << 3), Ok(Answer::Begun { place: 1 }));
            }
            hosted.work(3).expect("the one before it");
            assert_eq!(hosted.look(7), Ok(Answer::Unconfirmed { backs: times.into() }));
            assert_eq!(hosted.site.slots[0].backs, times.into());
        }
        hosted.confirm(7, number + 1).expect("it waits");
        hosted.query(1 << 3).expect("a place is free");
        let (backs, number) = (misfortunes.len() as u64, number as u32 + 1);
        let committed = Answer::Committed { id: 7, number, mark: 0, slot: 0, backs };
        assert_eq!(hosted.work(3), Ok(committed), "{misfortunes}");
    }
}

#[test]
fn times_put_back_may_reach_the_confirmations_and_no_more() {
    let mut hosted = Hosted::fresh();
    hosted.offer(7, 3).expect("a slot is free");
    let mut looked = |confirmations: u32, backs: u64| {
        (hosted.site.confirmations, hosted.site.commits) = (confirmations, confirmations);
        let given = 1..=confirmations as usize;
        let kept = |number| if given.contains(&number) { 1_000 + number as u32 } else { 0 };
        hosted.site.kept = std::array::from_fn(kept);
        hosted.site.slots[0].backs = backs;
        hosted.look(7)
    };
    for confirmations in [0, 1, 255] {
        let backs = u64::from(confirmations);
        assert_eq!(looked(confirmations, backs), Ok(Answer::Unconfirmed { backs }));
        assert_eq!(looked(confirmations, backs + 1), Err(Refusal::Unsound));
        assert_eq!(looked(confirmations, 1 << 32), Err(Refusal::Unsound));
    }
}

#[test]
fn a_query_shows_its_classes_at_one_point_and_counts_in_w() {
    let mut hosted = Hosted::fresh();
    assert_eq!(hosted.query(0), Err(Refusal::EmptyMask));
    hosted.offer(7, 3).expect("a slot is free");
    assert_eq!(hosted.work(3), Ok(Answer::Executed { id: 7 }));
    assert_eq!(hosted.query(1 << 3 | 1 << 15), Ok(Answer::Begun { place: 1 }));
    assert_eq!(hosted.look(7), Ok(Answer::Unconfirmed { backs: 1 }));
    assert_eq!(hosted.confirm(7, 1), Ok(Answer::Waiting { id: 7, w: 2, put_back: 0 }));
    let cells = [0; CELLS];
    assert_eq!(hosted.work(3), Ok(Answer::Entry { place: 1, class: 3, cells }));
    let committed = Answer::Committed { id: 7, number: 1, mark: 0, slot: 0, backs: 1 };
    assert_eq!(hosted.work(3), Ok(committed));
    for place in 2..=8 {
        assert_eq!(hosted.query(1 << 3), Ok(Answer::Begun { place }));
    }
    assert_eq!(hosted.query(1), Err(Refusal::QueriesOpen));
    assert_eq!(hosted.work(15), Ok(Answer::Entry { place: 1, class: 15, cells }));
    let mut later = cells;
    later[0] = 1;
    assert_eq!(hosted.work(3), Ok(Answer::Entry { place: 2, class: 3, cells: later }));
    hosted.site.begun = u32::MAX;
    assert_eq!(hosted.query(1), Err(Refusal::QueriesUsedUp));
}
