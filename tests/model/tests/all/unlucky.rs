//! How unlucky a booking can be: the books bound every count, and some counts reach the bound.

use crate::help::{add, confirm, offer, put, FIRST_ID};
use model::answer::*;
use model::books::{Books, Met};
use model::event::Run;
use model::random::Random;
use model::site::Site;
use model::stream::{Kind, Stream, KINDS};

/// Streams of each kind.
const SEEDS: u64 = 2;
/// Events of each stream.
const LENGTH: u64 = 3_000;
/// Out of a hundred events, after how many a query is begun.
const QUERIES: usize = 6;

/// The class of the request that is unlucky, and its id.
const CLASS: u8 = 2;
const UNLUCKY: u32 = 1;

/// What happens to a waiting request: another is confirmed before it, or a query begins.
#[derive(Clone, Copy, Debug)]
enum Misfortune {
    Overtaken,
    Queried,
}
use Misfortune::{Overtaken, Queried};

/// A site and the books of what it answered.
struct Kept {
    site: Site,
    books: Books,
}

impl Kept {
    /// A fresh site with the unlucky request, of two puts.
    fn with_one() -> Kept {
        let mut kept = Kept { site: Site::fresh(), books: Books::default() };
        kept.hear(0, |site| offer(site, UNLUCKY, CLASS, &[put(0, 1), put(1, 1)]));
        kept
    }

    /// Makes a call and enters what it answers.
    fn hear(&mut self, mask: u16, call: impl FnOnce(&mut Site) -> Answer) -> Answer {
        let answer = call(&mut self.site);
        self.books.enter(mask, &answer);
        answer
    }

    /// Begins a query.
    fn query(&mut self, mask: u16) -> Answer {
        self.hear(mask, |site| site.query(mask))
    }

    /// Takes a request that is offered now, or the entry of a query, past the unlucky one.
    fn suffer(&mut self, misfortune: Misfortune) {
        self.hear(0, |site| site.work(CLASS));
        match misfortune {
            Overtaken => {
                let id = FIRST_ID + self.site.confirmations;
                self.hear(0, |site| offer(site, id, CLASS, &[add(2, 1)]));
                let answer = self.hear(0, |site| confirm(site, id));
                assert_eq!(answer, Answer::Waiting { id, w: 1, put_back: UNLUCKY });
            }
            Queried => assert_eq!(self.query(1 << CLASS), Answer::Begun { place: 1 }),
        }
        self.hear(0, |site| site.work(CLASS));
    }

    /// Calls that are refused, and calls that say nothing to the unlucky request.
    fn harmless(&mut self) {
        let refused = Answer::Refused;
        assert_eq!(self.query(0), refused(EMPTY_MASK));
        assert_eq!(self.hear(0, |site| site.offer(&[1; 63])), refused(BAD_RECORD));
        assert_eq!(self.hear(0, |site| site.confirm(UNLUCKY, u32::MAX)), refused(WRONG_NUMBER));
        assert_eq!(self.hear(0, |site| confirm(site, 99)), refused(ID_NOT_QUEUED));
        assert_eq!(self.hear(0, |site| site.work(16)), refused(NO_SUCH_CLASS));
        self.query(!(1 << CLASS));
        for class in (0..16).filter(|class| *class != CLASS) {
            self.hear(0, |site| site.work(class));
        }
    }

    /// How often the unlucky request was put back, as look answers it.
    fn backs(&self) -> u64 {
        shown(self.site.look(UNLUCKY)).expect("it is queued")
    }
}

/// The count that an answer of look or a commit shows.
fn shown(answer: Answer) -> Option<u64> {
    match answer {
        Answer::ToDo { backs, .. } | Answer::Unconfirmed { backs } => Some(backs),
        Answer::Committed { backs, .. } => Some(backs),
        _ => None,
    }
}

/// Each of these befalls the unlucky request, which is then confirmed and worked off: it is put
/// back exactly so often, and met nothing else.
fn befalls(misfortunes: &[Misfortune]) {
    let mut kept = Kept::with_one();
    for (times, misfortune) in (1..).zip(misfortunes) {
        kept.harmless();
        kept.suffer(*misfortune);
        assert_eq!((kept.backs(), kept.books.met(UNLUCKY).most()), (times, times));
    }
    let often = misfortunes.len() as u64;
    kept.hear(0, |site| confirm(site, UNLUCKY));
    kept.query(1 << CLASS);
    assert_eq!(kept.site.look(UNLUCKY), Answer::ToDo { w: 2, backs: often });
    kept.hear(0, |site| site.work(CLASS));
    let last = kept.hear(0, |site| site.work(CLASS));
    assert_eq!(shown(last), Some(often), "{last:?}");
    let younger = misfortunes.iter().filter(|one| matches!(one, Overtaken)).count() as u64;
    let met = Met { younger, older: 0, queries: often - younger };
    assert_eq!(kept.books.met(UNLUCKY), met);
}

#[test]
fn a_request_that_meets_nothing_is_never_put_back() {
    befalls(&[]);
}

#[test]
fn one_request_or_query_puts_it_back_once() {
    befalls(&[Overtaken]);
    befalls(&[Queried]);
}

#[test]
fn two_requests_or_queries_put_it_back_twice() {
    befalls(&[Overtaken, Overtaken]);
    befalls(&[Queried, Queried]);
    befalls(&[Overtaken, Queried]);
    befalls(&[Queried, Overtaken]);
}

#[test]
fn three_requests_or_queries_put_it_back_three_times() {
    befalls(&[Overtaken, Overtaken, Overtaken]);
    befalls(&[Queried, Queried, Queried]);
    befalls(&[Overtaken, Queried, Overtaken]);
    befalls(&[Queried, Overtaken, Queried]);
}

/// What is confirmed under a number before it but was offered before it never puts it back.
#[test]
fn older_requests_put_nothing_back() {
    let mut kept = Kept { site: Site::fresh(), books: Books::default() };
    for id in [7, 8, 9, UNLUCKY] {
        kept.hear(0, |site| offer(site, id, CLASS, &[put(0, id)]));
    }
    for id in [9, 7, 8] {
        kept.hear(0, |site| confirm(site, id));
    }
    assert_eq!(kept.books.met(UNLUCKY), Met { younger: 0, older: 3, queries: 0 });
    assert_eq!(kept.backs(), 0);
    assert_eq!(kept.books.met(7), Met { younger: 1, older: 0, queries: 0 });
    assert_eq!(kept.site.look(7), Answer::ToDo { w: 2, backs: 1 });
}

/// What was seen of the counts over streams of traffic.
#[derive(Clone, Copy, Debug, Default)]
struct Seen {
    /// Counts above 0 that are as high as the books allow.
    sharp: u64,
    /// Counts above what the books allow without their queries.
    without_queries: u64,
    /// Counts above what older requests and queries make.
    by_older: u64,
}

impl Seen {
    /// Holds a count to the books.
    fn hold(&mut self, backs: u64, met: Met) {
        assert!(backs <= met.most(), "put back {backs} times, and met {met:?}");
        self.sharp += u64::from(backs > 0 && backs == met.most());
        self.without_queries += u64::from(backs > met.younger);
        self.by_older += u64::from(backs > met.older + met.queries);
    }
}

/// Runs a stream, with queries of few, all and no classes in it, and holds every count to the books.
fn bound(kind: Kind, seed: u64, seen: &mut Seen) {
    let (mut run, mut books, mut random) = (Run::fresh(), Books::default(), Random::new(seed));
    for bytes in Stream::new(kind, seed, LENGTH) {
        let mut answers = vec![(0, run.take(&bytes))];
        if random.chance(QUERIES) {
            let few = 1 << random.below(16) | 1 << random.below(16);
            let mask = random.pick(&[few, few, u16::MAX, 0]);
            answers.push((mask, run.site.query(mask)));
        }
        for (mask, answer) in answers {
            books.enter(mask, &answer);
            if let Answer::Committed { id, backs, .. } = answer {
                seen.hold(backs, books.met(id));
            }
        }
        for id in run.site.entries().map(|entry| entry.request.id) {
            seen.hold(shown(run.site.look(id)).expect("it is queued"), books.met(id));
        }
    }
}

/// By the answers alone, and neither one lower, nor by older requests, nor without the queries.
#[test]
fn the_books_bound_every_count_over_all_kinds() {
    let mut seen = Seen::default();
    for (kind, _) in KINDS {
        for seed in 0..SEEDS {
            bound(kind, seed, &mut seen);
        }
    }
    assert!(seen.sharp > 1_000, "{seen:?}");
    assert!(seen.without_queries > 1_000, "{seen:?}");
    assert!(seen.by_older > 1_000, "{seen:?}");
}
