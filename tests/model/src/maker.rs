//! Makes single events that suit the state of a site.

use crate::craft::{self, Damage, DAMAGES, ODD_CELLS, ODD_CLASSES};
use crate::event::{Event, CONFIRM, OFFER, READ, WORK};
use crate::random::Random;
use crate::record::{self, CLASSES, CLASS_AT, MAX_OPS, RECORD_BYTES};
use crate::site::{Class, Entry, Item, Site, KEPT};

/// How many ids are used where ids are few: somewhat more than are kept.
const FEW_IDS: u32 = 320;
/// What those ids are multiples of; they differ in all their bytes.
const FEW_IDS_STEP: u32 = 0x0080_0903;
/// How many confirmations ago an id was confirmed that is offered again: around the last one kept.
const AGO: [usize; 6] = [1, 2, 255, 256, 257, 258];
/// Kinds of event that do not exist.
const ODD_KINDS: [u8; 7] = [0, 5, 6, 7, 128, 254, 255];

/// One more than the largest low kind of event; some of the low ones do not exist.
const LOW_KINDS: u8 = 6;
/// Out of a hundred calls, how many are made though they may well be refused.
const USELESS_CALLS: usize = 5;
/// Out of a hundred broken records, how many also have a queued id.
const BROKEN_AGAIN: usize = 30;
/// One more than the largest small id.
const SMALL_IDS: u32 = 1_000;
/// One time in two, out of a hundred.
const HALF: usize = 50;

/// How the events of a piece are to be.
#[derive(Clone, Debug)]
pub struct Habits {
    /// The classes that requests are for.
    pub classes: Vec<u8>,
    /// Whether ids come from a handful.
    pub few_ids: bool,
    /// Whether every request has seven operations.
    pub long: bool,
    /// Whether every request has one operation.
    pub short: bool,
}

/// Out of a hundred events, how many offer, confirm and work; the rest read.
#[derive(Clone, Copy, Debug)]
pub struct Weights {
    /// How many offer.
    pub offer: usize,
    /// How many confirm.
    pub confirm: usize,
    /// How many work.
    pub work: usize,
}

/// Makes events, with a site of its own to know what suits.
#[derive(Clone, Debug)]
pub struct Maker {
    /// Where chance comes from.
    pub random: Random,
    /// The site after all events made so far.
    pub site: Site,
    /// How events are to be now.
    pub habits: Habits,
    /// How many records were broken so far.
    broken: usize,
    /// The ids confirmed so far, by their number.
    confirmed: Vec<u32>,
}

impl Maker {
    /// A maker that starts from a seed and a fresh site.
    pub fn new(seed: u64) -> Maker {
        let habits = Habits { classes: all_classes(), few_ids: false, long: false, short: false };
        let random = Random::new(seed);
        Maker { random, site: Site::fresh(), habits, broken: 0, confirmed: Vec::new() }
    }

    /// An event happens to the maker's own site.
    pub fn act(&mut self, event: &Event) {
        let before = self.site.confirmations;
        event.act(&mut self.site);
        if self.site.confirmations != before {
            self.confirmed.extend(self.site.kept.back());
        }
    }

    /// An offer, confirm, work or read that suits the site.
    pub fn traffic(&mut self, weights: Weights) -> Event {
        let Weights { offer, confirm, work } = weights;
        match self.random.below(100) {
            roll if roll < offer => self.offer(),
            roll if roll < offer + confirm => self.confirm(),
            roll if roll < offer + confirm + work => self.work(),
            _ => self.read(),
        }
    }

    /// An event of a kind; the fields it has no use for are zero or anything.
    fn event(&mut self, kind: u8) -> Event {
        if self.random.chance(HALF) {
            self.anything(kind)
        } else {
            Event::blank(kind)
        }
    }

    /// An event of a kind with all other fields left to chance.
    fn anything(&mut self, kind: u8) -> Event {
        let mut event = Event::blank(kind);
        [event.class, event.cell, event.unused] = [0; 3].map(|_| self.random.byte());
        event.number = self.random.number();
        self.random.fill(&mut event.record);
        event
    }

    /// An offer of a valid request.
    pub fn offer(&mut self) -> Event {
        let id = self.id_to_offer();
        let record = self.valid_record(id);
        Event { record, ..self.event(OFFER) }
    }

    /// An offer of a request whose id is queued, if any is.
    pub fn offer_again(&mut self) -> Event {
        let id = self.queued_id(|_| true).unwrap_or(1);
        let record = self.valid_record(id);
        Event { record, ..self.event(OFFER) }
    }

    /// An offer of an id that was confirmed some confirmations ago, kept still or not.
    pub fn offer_confirmed(&mut self) -> Event {
        let any = 1 + self.random.below(2 * KEPT);
        let usual = self.random.pick(&AGO);
        let ago = if self.random.chance(HALF) { any } else { usual };
        let Some(place) = self.confirmed.len().checked_sub(ago) else {
            return self.offer();
        };
        let record = self.valid_record(self.confirmed[place]);
        Event { record, ..self.event(OFFER) }
    }

    /// An offer of a record broken in the next way in turn.
    pub fn offer_broken(&mut self) -> Event {
        let mut offer =
            if self.random.chance(BROKEN_AGAIN) { self.offer_again() } else { self.offer() };
        DAMAGES[self.broken % DAMAGES.len()](&mut self.random, &mut offer.record);
        self.broken += 1;
        offer
    }

    /// The bytes of a valid request in one of the usual classes.
    fn valid_record(&mut self, id: u32) -> [u8; RECORD_BYTES] {
        let class = self.random.pick(&self.habits.classes);
        let count = match (self.habits.long, self.habits.short) {
            (true, _) => MAX_OPS,
            (_, true) => 1,
            _ => 1 + self.random.below(MAX_OPS),
        };
        record::write(&craft::request(&mut self.random, id, class, count))
    }

    /// An id: one of a handful, queued or not, or one that is not queued.
    fn id_to_offer(&mut self) -> u32 {
        if self.habits.few_ids {
            FEW_IDS_STEP * (1 + self.random.number() % FEW_IDS)
        } else {
            self.free_id()
        }
    }

    /// An id that is neither queued nor kept.
    fn free_id(&mut self) -> u32 {
        loop {
            let small = self.random.chance(HALF);
            let id = if small { self.random.number() % SMALL_IDS } else { self.random.number() };
            if id != 0 && self.site.find(id).is_none() && !self.site.kept.contains(&id) {
                return id;
            }
        }
    }

    /// The id of a queued request that the test allows.
    fn queued_id(&mut self, allows: fn(&Entry) -> bool) -> Option<u32> {
        let allowed = self.site.entries().filter(|entry| allows(entry));
        let ids = allowed.map(|entry| entry.request.id).collect();
        self.one_of(ids)
    }

    /// A confirm with the right number of a waiting request; mostly an offer if none waits.
    pub fn confirm(&mut self) -> Event {
        let id = if self.random.chance(HALF) { self.waiting_head() } else { None };
        let id = id.or_else(|| self.queued_id(|entry| entry.number.is_none()));
        if id.is_none() && !self.random.chance(USELESS_CALLS) {
            return self.offer();
        }
        let id = id.or_else(|| self.queued_id(|_| true)).unwrap_or(1);
        self.confirm_as(id, self.site.confirmations.wrapping_add(1))
    }

    /// The id of a waiting head, if there is one.
    fn waiting_head(&mut self) -> Option<u32> {
        let heads = self.site.classes.iter().filter_map(|class| class.queue.first()?.request());
        let waiting = heads.filter(|head| head.number.is_none());
        let ids = waiting.map(|head| head.request.id).collect();
        self.one_of(ids)
    }

    /// One of these ids, if there are any.
    fn one_of(&mut self, ids: Vec<u32>) -> Option<u32> {
        (!ids.is_empty()).then(|| self.random.pick(&ids))
    }

    /// A confirm of the last of two or more that wait in a queue; an offer if nowhere as many do.
    pub fn confirm_last(&mut self) -> Event {
        let tails = self.site.classes.iter().filter_map(|class| class.queue.last_chunk());
        let waiting = tails.filter(|two: &&[Item; 2]| two.iter().all(Item::is_waiting));
        let ids = waiting.filter_map(|[_, last]| Some(last.request()?.request.id)).collect();
        match self.one_of(ids) {
            Some(id) => self.confirm_as(id, self.site.confirmations.wrapping_add(1)),
            None => self.offer(),
        }
    }

    /// A confirm whose number or id is mostly wrong.
    pub fn confirm_wrong(&mut self) -> Event {
        let taken = self.site.confirmations;
        let next = taken.wrapping_add(1);
        let any = self.random.number();
        let number = self.random.pick(&[next, next, taken, next.wrapping_add(1), 0, u32::MAX, any]);
        let id = match self.random.below(4) {
            0 => self.free_id(),
            1 => self.random.pick(&[0, 1, u32::MAX]),
            2 => self.queued_id(|entry| entry.number.is_some()).unwrap_or(1),
            _ => self.queued_id(|_| true).unwrap_or(1),
        };
        self.confirm_as(id, number)
    }

    /// A confirm of an id under a number.
    fn confirm_as(&mut self, id: u32, number: u32) -> Event {
        let mut event = Event { number, ..self.event(CONFIRM) };
        event.record[..CLASS_AT].copy_from_slice(&id.to_le_bytes());
        event
    }

    /// A work call for a class with work to do; mostly a confirm if there is none.
    pub fn work(&mut self) -> Event {
        let busy = self.busy();
        let class = if self.random.chance(USELESS_CALLS) {
            self.random.pick(&self.habits.classes)
        } else if busy.is_empty() {
            return self.confirm();
        } else {
            self.random.pick(&busy)
        };
        Event { class, ..self.event(WORK) }
    }

    /// The classes with work to do.
    pub fn busy(&self) -> Vec<u8> {
        let classes = (0..).zip(&self.site.classes);
        let works = |class: &Class| class.queue.first().is_some_and(|head| head.to_do() > 0);
        classes.filter(|(_, class)| works(class)).map(|(number, _)| number).collect()
    }

    /// A read of a usual class and cell.
    pub fn read(&mut self) -> Event {
        let class = self.random.pick(&self.habits.classes);
        let cell = craft::cell(&mut self.random);
        Event { class, cell, ..self.event(READ) }
    }

    /// An offer, work or read with a class or cell at or past the end.
    pub fn odd(&mut self) -> Event {
        let usual = self.random.pick(&self.habits.classes);
        let odd = self.random.pick(&ODD_CLASSES);
        let class = if self.random.chance(HALF) { usual } else { odd };
        let cell = self.random.pick(&ODD_CELLS);
        match self.random.below(4) {
            0 => self.offer_odd(),
            1 => Event { class, ..self.event(WORK) },
            _ => Event { class, cell, ..self.event(READ) },
        }
    }

    /// An offer of a record with a class or cell at or past the end.
    fn offer_odd(&mut self) -> Event {
        let mut offer = self.offer();
        let damages: [Damage; 3] = [craft::odd_class, craft::odd_cell, craft::odd_second];
        let damage = self.random.pick(&damages);
        damage(&mut self.random, &mut offer.record);
        offer
    }

    /// An event whose kind is unknown.
    pub fn unknown(&mut self) -> Event {
        let kind = self.random.pick(&ODD_KINDS);
        self.event(kind)
    }

    /// An event of bytes left to chance; half of them with a low kind.
    pub fn chance_bytes(&mut self) -> Event {
        let low = self.random.chance(HALF);
        let kind = if low { self.random.byte() % LOW_KINDS } else { self.random.byte() };
        self.anything(kind)
    }
}

/// All sixteen classes.
pub fn all_classes() -> Vec<u8> {
    (0..CLASSES as u8).collect()
}
