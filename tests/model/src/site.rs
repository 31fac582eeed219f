//! The site in its plainest form: a queue and two runs of cells per class, three counts, the ids last confirmed.

use crate::answer::*;
use crate::record::{parse, Op, Request, CELLS, CLASSES};
use std::collections::VecDeque;

/// Slots of a site, shared by all classes.
pub const SLOTS: usize = 128;
/// A site keeps the ids of as many of its last confirmations.
pub const KEPT: usize = 256;
/// So many queries may be open, at places from 1.
pub const QUERIES: u8 = 8;

/// The 64 cells of a class.
pub type Cells = [u32; CELLS];

/// A queued request.
#[derive(Clone, Debug, PartialEq, Eq)]
pub struct Entry {
    /// The request itself.
    pub request: Request,
    /// The slot it stands in.
    pub slot: u8,
    /// Its definitive number once confirmed; none while waiting.
    pub number: Option<u32>,
    /// How many of its operations are done.
    pub done: usize,
    /// The place of the first of its done operations that declined, from 1; 0 if none did.
    pub mark: usize,
    /// How often it was put back since its offer.
    pub backs: u64,
}

impl Entry {
    /// Whether all operations are done.
    pub fn is_executed(&self) -> bool {
        self.done == self.request.ops.len()
    }

    /// How many operations are still to do.
    pub fn to_do(&self) -> usize {
        self.request.ops.len() - self.done
    }
}

/// The entry of a query in the queue of a class.
#[derive(Clone, Copy, Debug, PartialEq, Eq)]
pub struct Reading {
    /// The query's place, from 1.
    pub place: u8,
    /// How many confirmations were taken when the query began.
    pub begun: u32,
}

/// What stands in a queue.
#[derive(Clone, Debug, PartialEq, Eq)]
pub enum Item {
    /// A request.
    Request(Entry),
    /// The entry of a query.
    Query(Reading),
}

impl Item {
    /// The request, if it is one.
    pub fn request(&self) -> Option<&Entry> {
        match self {
            Item::Request(entry) => Some(entry),
            Item::Query(_) => None,
        }
    }

    /// The entry of a query, if it is one.
    pub fn query(&self) -> Option<&Reading> {
        match self {
            Item::Request(_) => None,
            Item::Query(reading) => Some(reading),
        }
    }

    /// Whether it is a request that waits for its number.
    pub fn is_waiting(&self) -> bool {
        self.request().is_some_and(|entry| entry.number.is_none())
    }

    /// The work calls that it still takes.
    pub fn to_do(&self) -> usize {
        self.request().map_or(1, Entry::to_do)
    }
}

/// One class: its queue, head first, and its cells.
#[derive(Clone, Debug, PartialEq, Eq)]
pub struct Class {
    /// The queued requests and the entries of queries, head first.
    pub queue: Vec<Item>,
    /// The committed cells.
    pub committed: Cells,
    /// The working cells.
    pub working: Cells,
}

/// One site.
#[derive(Clone, Debug, PartialEq, Eq)]
pub struct Site {
    /// The classes, by number.
    pub classes: Vec<Class>,
    /// How many confirmations were taken.
    pub confirmations: u32,
    /// How many requests committed.
    pub commits: u32,
    /// How many queries were begun.
    pub queries: u32,
    /// The ids of the last confirmations, that of the latest number last.
    pub kept: VecDeque<u32>,
}

impl Site {
    /// A site with nothing queued, all counts 0 and all cells 0.
    pub fn fresh() -> Site {
        let class = Class { queue: Vec::new(), committed: [0; CELLS], working: [0; CELLS] };
        let kept = VecDeque::new();
        Site { classes: vec![class; CLASSES], confirmations: 0, commits: 0, queries: 0, kept }
    }

    /// Offers a record: it joins the end of its class queue in the lowest free slot.
    pub fn offer(&mut self, record: &[u8]) -> Answer {
        let Some(request) = parse(record) else {
            return Answer::Refused(BAD_RECORD);
        };
        if self.find(request.id).is_some() {
            return Answer::Refused(ID_QUEUED);
        }
        if self.kept.contains(&request.id) {
            return Answer::Refused(ID_KEPT);
        }
        let Some(slot) = self.lowest_free_slot() else {
            return Answer::Refused(SITE_FULL);
        };
        let (id, class) = (request.id, request.class);
        let queue = &mut self.classes[usize::from(class)].queue;
        let entry = Entry { request, slot, number: None, done: 0, mark: 0, backs: 0 };
        queue.push(Item::Request(entry));
        Answer::Queued { id, class, place: queue.len(), slot }
    }

    /// Confirms a queued request under its definitive number.
    pub fn confirm(&mut self, id: u32, number: u32) -> Answer {
        if self.confirmations == u32::MAX {
            return Answer::Refused(NUMBERS_USED_UP);
        }
        if number != self.confirmations + 1 {
            return Answer::Refused(WRONG_NUMBER);
        }
        let Some((class, at)) = self.find(id) else {
            return Answer::Refused(ID_NOT_QUEUED);
        };
        let entry = self.classes[class].request_at(at);
        if entry.number.is_some() {
            return Answer::Refused(CONFIRMED_ALREADY);
        }
        entry.number = Some(number);
        let commits_now = at == 0 && entry.is_executed();
        self.confirmations += 1;
        self.keep(id);
        if commits_now {
            return self.commit(class, number);
        }
        let put_back = if at == 0 { 0 } else { self.classes[class].put_waiting_head_back() };
        let at = self.classes[class].move_before_waiting(at);
        Answer::Waiting { id, w: self.classes[class].to_do_up_to(at), put_back }
    }

    /// The head of a class does its next operation; the entry of a query is read and taken away.
    pub fn work(&mut self, class: u8) -> Answer {
        let number = class;
        let class = usize::from(class);
        if class >= CLASSES {
            return Answer::Refused(NO_SUCH_CLASS);
        }
        let queue = &mut self.classes[class].queue;
        match queue.first() {
            None => return Answer::Refused(NOTHING_TO_DO),
            Some(Item::Request(head)) if head.is_executed() => {
                return Answer::Refused(NOTHING_TO_DO);
            }
            Some(&Item::Query(Reading { place, .. })) => {
                queue.remove(0);
                let cells = self.classes[class].committed;
                return Answer::Read { place, class: number, cells };
            }
            Some(Item::Request(_)) => {}
        }
        self.classes[class].step();
        let head = self.classes[class].request_at(0);
        let (id, done) = (head.request.id, head.done);
        match head.number {
            _ if !head.is_executed() => Answer::Stepped { id, done },
            Some(number) => self.commit(class, number),
            None => Answer::Executed { id },
        }
    }

    /// Begins a query over the classes whose bits are set: each gets an entry after the confirmed
    /// and before the waiting, and a waiting head is put back.
    pub fn query(&mut self, mask: u16) -> Answer {
        if mask == 0 {
            return Answer::Refused(EMPTY_MASK);
        }
        let Some(place) = (1..=QUERIES).find(|&place| !self.is_open(place)) else {
            return Answer::Refused(QUERIES_OPEN);
        };
        if self.queries == u32::MAX {
            return Answer::Refused(QUERIES_USED_UP);
        }
        self.queries += 1;
        let entry = Reading { place, begun: self.confirmations };
        for (_, class) in (0..).zip(&mut self.classes).filter(|(c, _)| mask & (1 << c) != 0) {
            class.put_waiting_head_back();
            let to = class.first_waiting();
            class.queue.insert(to, Item::Query(entry));
        }
        Answer::Begun { place }
    }

    /// Whether the query at a place is open: an entry of it is still to be read.
    pub fn is_open(&self, place: u8) -> bool {
        self.readings().any(|reading| reading.place == place)
    }

    /// Answers a committed cell.
    pub fn read(&self, class: u8, cell: u8) -> Answer {
        if usize::from(class) >= CLASSES {
            return Answer::Refused(NO_SUCH_CLASS);
        }
        if usize::from(cell) >= CELLS {
            return Answer::Refused(NO_SUCH_CELL);
        }
        Answer::Value(self.classes[usize::from(class)].committed[usize::from(cell)])
    }

    /// Answers how many work calls a confirmed request still needs, and how often any was put back.
    pub fn look(&self, id: u32) -> Answer {
        let Some((class, at)) = self.find(id) else {
            return Answer::Refused(ID_NOT_QUEUED);
        };
        let class = &self.classes[class];
        let entry = class.queue[at].request().expect("a request was found");
        let Entry { number, backs, .. } = *entry;
        match number {
            Some(_) => Answer::ToDo { w: class.to_do_up_to(at), backs },
            None => Answer::Unconfirmed { backs },
        }
    }

    /// All queued requests, class by class, head first.
    pub fn entries(&self) -> impl Iterator<Item = &Entry> {
        self.classes.iter().flat_map(|class| class.queue.iter().filter_map(Item::request))
    }

    /// All entries of queries, class by class, head first.
    pub fn readings(&self) -> impl Iterator<Item = &Reading> {
        self.classes.iter().flat_map(|class| class.queue.iter().filter_map(Item::query))
    }

    /// How many requests are queued.
    pub fn queued(&self) -> usize {
        self.entries().count()
    }

    /// The class and queue index of a queued id.
    pub fn find(&self, id: u32) -> Option<(usize, usize)> {
        self.classes.iter().enumerate().find_map(|(number, class)| {
            let mut requests = class.queue.iter().map(Item::request);
            let at = requests.position(|entry| entry.is_some_and(|e| e.request.id == id))?;
            Some((number, at))
        })
    }

    /// Keeps the id that the latest number was given to, and no more than 256.
    fn keep(&mut self, id: u32) {
        self.kept.push_back(id);
        if self.kept.len() > KEPT {
            self.kept.pop_front();
        }
    }

    /// The lowest-numbered slot that no queued request stands in.
    fn lowest_free_slot(&self) -> Option<u8> {
        let mut used = [false; SLOTS];
        for entry in self.entries() {
            used[usize::from(entry.slot)] = true;
        }
        (0u8..).zip(used).find(|(_, used)| !used).map(|(slot, _)| slot)
    }

    /// The head of a class commits under its number.
    fn commit(&mut self, class: usize, number: u32) -> Answer {
        let class = &mut self.classes[class];
        let head = class.request_at(0).clone();
        class.queue.remove(0);
        class.committed = class.working;
        self.commits += 1;
        let Entry { request, slot, mark, backs, .. } = head;
        Answer::Committed { id: request.id, number, mark, slot, backs }
    }
}

impl Class {
    /// The request at this index of the queue.
    pub fn request_at(&mut self, at: usize) -> &mut Entry {
        match &mut self.queue[at] {
            Item::Request(entry) => entry,
            Item::Query(_) => panic!("the entry of a query is no request"),
        }
    }

    /// The head does its next operation on the working cells.
    fn step(&mut self) {
        let mut working = self.working;
        let head = self.request_at(0);
        let op = head.request.ops[head.done];
        head.done += 1;
        if head.mark == 0 && !carry_out(op, &mut working) {
            head.mark = head.done;
            working = self.committed;
        }
        self.working = working;
    }

    /// Puts the head back if it waits; its id or 0.
    fn put_waiting_head_back(&mut self) -> u32 {
        if !self.queue.first().is_some_and(Item::is_waiting) {
            return 0;
        }
        self.working = self.committed;
        let head = self.request_at(0);
        head.done = 0;
        head.mark = 0;
        head.backs += 1;
        head.request.id
    }

    /// Where the first waiting request stands; the queue's length where none waits.
    fn first_waiting(&self) -> usize {
        self.queue.iter().position(Item::is_waiting).unwrap_or(self.queue.len())
    }

    /// Moves a request to directly before the first waiting one; its new index.
    fn move_before_waiting(&mut self, at: usize) -> usize {
        let entry = self.queue.remove(at);
        let to = self.first_waiting();
        self.queue.insert(to, entry);
        to
    }

    /// The work calls still to do by what stands at this index and by all before it.
    fn to_do_up_to(&self, at: usize) -> usize {
        self.queue[..=at].iter().map(Item::to_do).sum()
    }
}

/// Carries out one operation; false if it declines, and then the cells are as before.
fn carry_out(op: Op, cells: &mut Cells) -> bool {
    match op {
        Op::Put { cell, amount } => cells[usize::from(cell)] = amount,
        Op::Add { cell, amount } => {
            let cell = &mut cells[usize::from(cell)];
            *cell = cell.wrapping_add(amount);
        }
        Op::Need { cell, amount } => return cells[usize::from(cell)] >= amount,
        Op::Move { cell, second, amount } => {
            let (from, to) = (usize::from(cell), usize::from(second));
            let left = cells[from].checked_sub(amount);
            let given = cells[to].checked_add(amount);
            let (Some(left), Some(given)) = (left, given) else {
                return false;
            };
            (cells[from], cells[to]) = (left, given);
        }
    }
    true
}
