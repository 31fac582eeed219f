//! Books kept from what the callers of a site were told: what each request met while it waited.

use crate::answer::Answer;
use std::collections::HashMap;

/// What a request met from its offer to its confirmation.
#[derive(Clone, Copy, Debug, Default, PartialEq, Eq)]
pub struct Met {
    /// Requests of its class offered after it and confirmed before it.
    pub younger: u64,
    /// Requests of its class offered before it and confirmed while it waited.
    pub older: u64,
    /// Queries that named its class and began while it waited.
    pub queries: u64,
}

impl Met {
    /// The most that the request can have been put back.
    pub fn most(&self) -> u64 {
        self.younger + self.queries
    }
}

/// What was told of the request that was queued last under an id.
#[derive(Clone, Copy, Debug)]
struct Known {
    class: u32,
    /// How many requests had been queued before it.
    turn: usize,
    /// Whether it was not confirmed yet.
    waits: bool,
    met: Met,
}

/// The books of a site that was fresh.
#[derive(Clone, Debug, Default)]
pub struct Books {
    /// What is known, by id.
    known: HashMap<u32, Known>,
    /// How many requests were queued.
    turns: usize,
}

impl Books {
    /// Enters an answer, a query's with its mask.
    pub fn enter(&mut self, mask: u16, answer: &Answer) {
        match *answer {
            Answer::Queued { id, class, .. } => self.enter_queued(id, class.into()),
            Answer::Waiting { id, .. } | Answer::Committed { id, .. } => self.enter_confirmed(id),
            Answer::Begun { .. } => self.enter_query(mask),
            _ => {}
        }
    }

    /// Enters that a request was queued in a class.
    pub fn enter_queued(&mut self, id: u32, class: u32) {
        let known = Known { class, turn: self.turns, waits: true, met: Met::default() };
        self.known.insert(id, known);
        self.turns += 1;
    }

    /// Enters that a request is confirmed: it may have been told before.
    pub fn enter_confirmed(&mut self, id: u32) {
        let this = self.known.get_mut(&id).expect("a confirmed request was queued");
        if !this.waits {
            return;
        }
        this.waits = false;
        let Known { class, turn, .. } = *this;
        for other in self.known.values_mut().filter(|other| other.waits && other.class == class) {
            if other.turn < turn {
                other.met.younger += 1;
            } else {
                other.met.older += 1;
            }
        }
    }

    /// Enters that a query of these classes began.
    pub fn enter_query(&mut self, mask: u16) {
        let named = |class: u32| mask & (1 << class) != 0;
        for known in self.known.values_mut().filter(|known| known.waits && named(known.class)) {
            known.met.queries += 1;
        }
    }

    /// What the request met that was queued last under an id; nothing where there was none.
    pub fn met(&self, id: u32) -> Met {
        self.known.get(&id).map_or(Met::default(), |known| known.met)
    }
}
