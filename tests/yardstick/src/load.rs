//! Calls that keep a site at a load, made before any time is taken.

use crate::call::Call;
use model::event::Event;
use model::maker::{Maker, Weights};
use model::record::CLASSES;

/// Out of a hundred calls, how many look in usual traffic, and where a display asks all the time.
const LOOKS: usize = 8;
const DISPLAY_LOOKS: usize = 50;
/// Out of a hundred calls, how many begin a query; now and then over no class.
const QUERIES: usize = 2;
/// Out of a hundred looks, how many are for an id that is not queued.
const LOOKS_IN_VAIN: usize = 10;
/// Out of a hundred offers, how many bring a broken record or a queued id.
const BAD_OFFERS: usize = 4;
/// Out of a hundred confirms, how many have a wrong number or id.
const BAD_CONFIRMS: usize = 2;
/// Out of a hundred calls, how many ask for a class or cell at or past the end.
const ODD_CALLS: usize = 1;
/// Calls below the load.
const GROWING: Weights = Weights { offer: 40, confirm: 8, work: 40 };
/// Calls at the load and above.
const SHRINKING: Weights = Weights { offer: 2, confirm: 20, work: 66 };
/// Calls that only fill the site.
const FILLING: Weights = Weights { offer: 100, confirm: 0, work: 0 };

/// A load: its name, about how many requests are queued, and how many calls look.
#[derive(Clone, Copy, Debug)]
pub struct Load {
    /// The name.
    pub name: &'static str,
    /// How many requests the calls keep queued, about.
    pub queued: usize,
    /// Out of a hundred calls, how many look.
    pub looks: usize,
}

/// The loads: a few requests queued, half of the slots used, nearly all or all of them used; and these with half of all calls looks.
pub const LOADS: [Load; 4] = [
    Load { name: "empty", queued: 2, looks: LOOKS },
    Load { name: "half full", queued: 64, looks: LOOKS },
    Load { name: "full", queued: 126, looks: LOOKS },
    Load { name: "looks", queued: 126, looks: DISPLAY_LOOKS },
];

/// The calls of a run at a load.
#[derive(Clone, Debug)]
pub struct Script {
    /// The calls that bring a fresh site to the load.
    pub filling: Vec<Call>,
    /// The calls at the load.
    pub calls: Vec<Call>,
    /// The fewest requests queued before a call at the load.
    pub fewest: usize,
    /// The most requests queued before a call at the load.
    pub most: usize,
}

impl Script {
    /// The calls of a load, fixed by a seed and how many they are.
    pub fn new(load: Load, seed: u64, length: usize) -> Script {
        let mut traffic = Traffic { maker: Maker::new(seed), load };
        let mut script =
            Script { filling: Vec::new(), calls: Vec::new(), fewest: usize::MAX, most: 0 };
        while traffic.queued() < load.queued {
            script.filling.extend(traffic.made(FILLING));
        }
        while script.calls.len() < length {
            script.fewest = script.fewest.min(traffic.queued());
            script.most = script.most.max(traffic.queued());
            script.calls.extend(traffic.next());
        }
        script
    }
}

/// Makes the calls of a load.
struct Traffic {
    /// What makes single events, with a site of its own.
    maker: Maker,
    /// The load to keep.
    load: Load,
}

impl Traffic {
    /// How many requests are queued now.
    fn queued(&self) -> usize {
        self.maker.site.queued()
    }

    /// The next call of sensible traffic.
    fn next(&mut self) -> Option<Call> {
        let random = &mut self.maker.random;
        if random.chance(self.load.looks) {
            return Some(self.look());
        }
        if random.chance(QUERIES) {
            return Some(self.query());
        }
        if random.chance(ODD_CALLS) {
            let odd = self.maker.odd();
            return self.done(odd);
        }
        self.made(if self.queued() < self.load.queued { GROWING } else { SHRINKING })
    }

    /// The next call by weights; some offers and confirms are bad ones.
    fn made(&mut self, weights: Weights) -> Option<Call> {
        let event = self.maker.traffic(weights);
        let call = Call::of_event(&event);
        let event = match call {
            Some(Call::Offer(_)) if self.maker.random.chance(BAD_OFFERS) => {
                self.maker.offer_broken()
            }
            Some(Call::Confirm { .. }) if self.maker.random.chance(BAD_CONFIRMS) => {
                self.maker.confirm_wrong()
            }
            _ => event,
        };
        self.done(event)
    }

    /// The call of an event, which the maker's own site has taken.
    fn done(&mut self, event: Event) -> Option<Call> {
        event.act(&mut self.maker.site);
        Call::of_event(&event)
    }

    /// A query over some classes.
    fn query(&mut self) -> Call {
        let random = &mut self.maker.random;
        let (one, other) = (1 << random.below(CLASSES), 1 << random.below(CLASSES));
        let mask = random.pick(&[one, one | other, one | other, one ^ other]);
        self.maker.site.query(mask);
        Call::Query { mask }
    }

    /// A look at a queued id, or now and then at any.
    fn look(&mut self) -> Call {
        let ids: Vec<u32> = self.maker.site.entries().map(|entry| entry.request.id).collect();
        let random = &mut self.maker.random;
        let any = random.number();
        let id =
            if ids.is_empty() || random.chance(LOOKS_IN_VAIN) { any } else { random.pick(&ids) };
        Call::Look { id: id.into() }
    }
}

/// How many calls of each kind a script has, by name.
pub fn kinds(calls: &[Call]) -> [(&'static str, usize); 6] {
    let count = |is: fn(&Call) -> bool| calls.iter().filter(|call| is(call)).count();
    [
        ("offers", count(|call| matches!(call, Call::Offer(_)))),
        ("confirms", count(|call| matches!(call, Call::Confirm { .. }))),
        ("works", count(|call| matches!(call, Call::Work { .. }))),
        ("reads", count(|call| matches!(call, Call::Read { .. }))),
        ("looks", count(|call| matches!(call, Call::Look { .. }))),
        ("queries", count(|call| matches!(call, Call::Query { .. }))),
    ]
}
