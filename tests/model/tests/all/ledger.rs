//! Books kept beside a site, from the events and answers alone, to test what is demanded of it.

use model::answer::{Answer, NOTHING_TO_DO};
use model::event::{Event, CONFIRM, OFFER, WORK};
use model::record::number_at;
use model::site::Site;
use std::collections::HashMap;

/// One more than the largest cell.
const SPAN: u64 = 1 << 32;

/// The cells of a class in the books.
type Cells = [u64; 64];

/// A request in the books: its class, its operations as code, cell, second cell, amount, and how
/// often it was put back.
#[derive(Clone, Debug)]
struct Noted {
    class: usize,
    ops: Vec<(u8, usize, usize, u64)>,
    backs: u64,
}

/// A confirmed request in the books.
#[derive(Clone, Debug)]
struct Confirmed {
    id: u32,
    number: u32,
    request: Noted,
}

/// A request that was promised a commit: its id, class and the work calls left.
#[derive(Clone, Debug)]
struct Promise {
    id: u32,
    class: usize,
    left: usize,
}

/// How often needs and moves passed or declined.
#[derive(Clone, Debug, Default)]
pub struct Outcomes {
    pub need_passed: u64,
    pub need_declined: u64,
    pub move_passed: u64,
    pub move_short: u64,
    pub move_overfull: u64,
}

/// The books.
#[derive(Clone, Debug)]
pub struct Ledger {
    /// Requests taken and not committed, by id.
    queued: HashMap<u32, Noted>,
    /// All confirmed requests of each class in definitive order.
    confirmed: Vec<Vec<Confirmed>>,
    /// How many requests of each class committed.
    committed: [usize; 16],
    /// The cells of each class after its committed requests.
    cells: [Cells; 16],
    /// Promises not yet kept.
    promises: Vec<Promise>,
    /// How many offers were accepted.
    accepted: u64,
    /// How operations of committed requests came out.
    pub outcomes: Outcomes,
}

impl Ledger {
    /// The books of a fresh site.
    pub fn fresh() -> Ledger {
        Ledger {
            queued: HashMap::new(),
            confirmed: vec![Vec::new(); 16],
            committed: [0; 16],
            cells: [[0; 64]; 16],
            promises: Vec::new(),
            accepted: 0,
            outcomes: Outcomes::default(),
        }
    }

    /// Enters an event and its answer, and checks the site against the books.
    pub fn enter(&mut self, event: &Event, answer: &Answer, site: &Site) {
        match (event.kind, *answer) {
            (OFFER, Answer::Queued { id, .. }) => self.enter_offer(event, id),
            (CONFIRM, Answer::Committed { .. } | Answer::Waiting { .. }) => {
                self.enter_confirm(event, answer);
            }
            (WORK, _) => self.enter_work(event.class, answer),
            _ => {}
        }
        self.check(site);
    }

    /// Enters an accepted offer.
    fn enter_offer(&mut self, event: &Event, id: u32) {
        let record = &event.record;
        assert_eq!(id, number_at(record, 0));
        let ops = record[8..].chunks(8).take(record[5].into());
        let ops = ops.map(|op| (op[0], op[1].into(), op[2].into(), number_at(op, 4).into()));
        let noted = Noted { class: record[4].into(), ops: ops.collect(), backs: 0 };
        assert!(self.queued.insert(id, noted).is_none(), "{id} was queued already");
        self.accepted += 1;
    }

    /// Enters an accepted confirm: W is 0 and it commits, or W is promised.
    fn enter_confirm(&mut self, event: &Event, answer: &Answer) {
        let (id, number) = (number_at(&event.record, 0), event.number);
        let request = self.queued[&id].clone();
        let class = request.class;
        let before: usize = self.confirmed.iter().map(Vec::len).sum();
        assert_eq!(number as usize, before + 1, "numbers come in order");
        self.confirmed[class].push(Confirmed { id, number, request });
        match *answer {
            Answer::Waiting { id: named, w, put_back } => {
                assert_eq!(named, id);
                assert!((1..=896).contains(&w), "W is {w}");
                assert!(self.promises.iter().all(|promise| promise.id != put_back));
                self.promises.push(Promise { id, class, left: w });
                self.enter_put_back(put_back);
            }
            _ => self.enter_commit(class, answer),
        }
    }

    /// Enters that a request was put back; none has the id 0.
    fn enter_put_back(&mut self, id: u32) {
        if let Some(head) = self.queued.get_mut(&id) {
            head.backs += 1;
        }
    }

    /// Enters a work call: it counts for every promise of its class.
    fn enter_work(&mut self, class: u8, answer: &Answer) {
        let class = usize::from(class);
        if let Answer::Refused(number) = *answer {
            let promised = self.promises.iter().any(|promise| promise.class == class);
            assert!(!promised || number != NOTHING_TO_DO, "refused while a promise is open");
            return;
        }
        for promise in self.promises.iter_mut().filter(|promise| promise.class == class) {
            promise.left -= 1;
        }
        let due: Vec<u32> =
            self.promises.iter().filter(|promise| promise.left == 0).map(|p| p.id).collect();
        self.promises.retain(|promise| promise.left > 0);
        match *answer {
            Answer::Committed { id, .. } => {
                assert_eq!(due, [id], "it commits at exactly the W-th work call");
                self.enter_commit(class, answer);
            }
            _ => assert!(due.is_empty(), "{due:?} did not commit when due"),
        }
    }

    /// Enters a commit: the next confirmed request of the class in definitive order.
    fn enter_commit(&mut self, class: usize, answer: &Answer) {
        let next = self.confirmed[class][self.committed[class]].clone();
        let run = run_request(&self.cells[class], &next.request, &mut self.outcomes);
        let Answer::Committed { id, number, mark, backs, .. } = *answer else {
            panic!("{answer:?} is no commit");
        };
        assert_eq!((id, number, mark), (next.id, next.number, run.err().unwrap_or(0)));
        self.cells[class] = run.unwrap_or(self.cells[class]);
        self.committed[class] += 1;
        let noted = self.queued.remove(&id).expect("it was queued");
        assert_eq!(backs, noted.backs, "{id} was put back as often as told");
    }

    /// Checks the site against the books.
    fn check(&self, site: &Site) {
        for (cells, class) in self.cells.iter().zip(&site.classes) {
            assert_eq!(*cells, class.committed.map(u64::from));
        }
        for promise in &self.promises {
            let backs = self.queued[&promise.id].backs;
            let left = Answer::ToDo { w: promise.left, backs };
            assert_eq!(site.look(promise.id), left, "{promise:?}");
        }
        let waits = |(id, noted): &(&u32, &Noted)| {
            site.look(**id) == Answer::Unconfirmed { backs: noted.backs }
        };
        let unconfirmed = self.queued.iter().filter(waits).count();
        assert_eq!(unconfirmed + self.promises.len(), self.queued.len());
        assert_eq!(site.queued(), self.queued.len());
        let commits: usize = self.committed.iter().sum();
        assert_eq!(self.accepted, (commits + self.queued.len()) as u64);
    }

    /// Runs all committed requests again from zero cells and compares with the site.
    pub fn check_from_the_start(&self, site: &Site) {
        for (number, class) in site.classes.iter().enumerate() {
            let mut cells = [0; 64];
            for one in &self.confirmed[number][..self.committed[number]] {
                let run = run_request(&cells, &one.request, &mut Outcomes::default());
                cells = run.unwrap_or(cells);
            }
            assert_eq!(cells, class.committed.map(u64::from), "class {number}");
        }
    }
}

/// The cells after a whole request, or the place of the operation that declines.
fn run_request(start: &Cells, request: &Noted, outcomes: &mut Outcomes) -> Result<Cells, usize> {
    let mut cells = *start;
    for (place, &(code, cell, second, amount)) in (1..).zip(&request.ops) {
        let enough = cells[cell] >= amount;
        let fits = cells[second] + amount < SPAN;
        match (code, enough, fits) {
            (1, _, _) => cells[cell] = amount,
            (2, _, _) => cells[cell] = (cells[cell] + amount) % SPAN,
            (3, true, _) => outcomes.need_passed += 1,
            (3, false, _) => outcomes.need_declined += 1,
            (4, true, true) => outcomes.move_passed += 1,
            (4, false, _) => outcomes.move_short += 1,
            (4, true, false) => outcomes.move_overfull += 1,
            _ => panic!("code {code} was accepted"),
        }
        if (code >= 3 && !enough) || (code == 4 && !fits) {
            return Err(place);
        }
        if code == 4 {
            cells[cell] -= amount;
            cells[second] += amount;
        }
    }
    Ok(cells)
}
