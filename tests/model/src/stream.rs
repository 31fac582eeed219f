//! Streams of events fixed by a kind, a seed and a length.

use crate::event::{Event, EVENT_BYTES};
use crate::maker::{all_classes, Habits, Maker, Weights};
use crate::record::CLASSES;
use crate::site::SLOTS;
use std::io::{self, Write};

/// What a stream is made of.
#[derive(Clone, Copy, Debug, PartialEq, Eq)]
pub enum Kind {
    /// Pieces of all other kinds but short tails.
    Mixed,
    /// Offers, confirms in order, work and reads over all classes.
    Sensible,
    /// Confirms with wrong numbers and ids among sensible traffic.
    Numbers,
    /// Records broken in each rule in turn among sensible traffic.
    Damaged,
    /// Classes and cells at and past the end among sensible traffic.
    Odd,
    /// All 128 slots used and kept in use.
    Full,
    /// Sensible traffic in one class.
    Single,
    /// Sensible traffic with a handful of ids.
    Ids,
    /// Short requests that come and go, and ids confirmed before offered again.
    Again,
    /// Requests that came last are confirmed first, so that a waiting head is put back often.
    Overtaken,
    /// Sensible traffic whose last event is cut short.
    Tails,
    /// Unknown kinds among sensible traffic.
    Unknown,
    /// Bytes left to chance.
    Random,
}

/// All kinds with their names; the first is the one that covers most alone.
pub const KINDS: [(Kind, &str); 13] = [
    (Kind::Mixed, "mixed"),
    (Kind::Sensible, "sensible"),
    (Kind::Numbers, "numbers"),
    (Kind::Damaged, "damaged"),
    (Kind::Odd, "odd"),
    (Kind::Full, "full"),
    (Kind::Single, "single"),
    (Kind::Ids, "ids"),
    (Kind::Again, "again"),
    (Kind::Overtaken, "overtaken"),
    (Kind::Tails, "tails"),
    (Kind::Unknown, "unknown"),
    (Kind::Random, "random"),
];

/// The kinds that pieces of a mixed stream have.
const PIECES: [Kind; 11] = [
    Kind::Sensible,
    Kind::Numbers,
    Kind::Damaged,
    Kind::Odd,
    Kind::Full,
    Kind::Single,
    Kind::Ids,
    Kind::Again,
    Kind::Overtaken,
    Kind::Unknown,
    Kind::Random,
];
/// The shortest piece of a mixed stream, in events.
const PIECE_LEAST: usize = 20;
/// One more than what a piece may be longer than the shortest.
const PIECE_SPAN: usize = 300;
/// One in so many events changes whether a full house only gathers confirmations.
const GATHER_TURN: usize = 300;

/// Over how many classes a full house may be spread.
const FULL_SPREADS: [usize; 4] = [1, 2, 5, CLASSES];
/// Over how many classes requests that are overtaken may be spread.
const OVERTAKEN_SPREADS: [usize; 2] = [1, 2];
/// Out of a hundred events that overtake, how many are sensible traffic.
const STRAY: usize = 2;
/// Out of a hundred full houses, how many have long requests only.
const FULL_LONG: usize = 50;
/// Out of a hundred events of a full house, how many offer a queued id again.
const FULL_AGAIN: usize = 5;
/// Out of a hundred events of a full house, how many offer a broken record.
const FULL_BROKEN: usize = 5;
/// Out of a hundred events that offer ids again, how many do.
const AGAIN: usize = 15;
/// Out of a hundred events of a special kind, how many are special.
const SPECIAL: usize = 50;

/// How many requests sensible traffic keeps queued, about.
const USUAL_QUEUED: usize = 24;
/// Sensible traffic while few requests are queued.
const GROWING: Weights = Weights { offer: 35, confirm: 6, work: 52 };
/// Sensible traffic while many requests are queued.
const SHRINKING: Weights = Weights { offer: 5, confirm: 14, work: 74 };
/// Short requests that come and go.
const PASSING: Weights = Weights { offer: 34, confirm: 32, work: 33 };
/// A full house before it is full.
const FILLING: Weights = Weights { offer: 88, confirm: 4, work: 4 };
/// A full house that gathers confirmations.
const GATHERING: Weights = Weights { offer: 12, confirm: 80, work: 0 };
/// A full house that lets requests go.
const HOLDING: Weights = Weights { offer: 12, confirm: 12, work: 70 };

/// The kind with a name.
pub fn kind_named(name: &str) -> Option<Kind> {
    KINDS.iter().find(|(_, known)| *known == name).map(|(kind, _)| *kind)
}

/// The events of a stream, one after another, each as its bytes.
#[derive(Clone, Debug)]
pub struct Stream {
    /// The kind of the whole stream.
    kind: Kind,
    /// Events still to come.
    left: u64,
    /// What makes the events.
    maker: Maker,
    /// The kind of the piece that a mixed stream is in.
    piece: Kind,
    /// Events still to come in that piece.
    piece_left: usize,
    /// Whether a full house only gathers confirmations now.
    gathers: bool,
}

impl Stream {
    /// The stream of a kind with a seed and a number of events.
    pub fn new(kind: Kind, seed: u64, length: u64) -> Stream {
        let maker = Maker::new(seed);
        let mut stream =
            Stream { kind, left: length, maker, piece: kind, piece_left: 0, gathers: false };
        stream.maker.habits = stream.habits(kind);
        stream
    }

    /// The habits that suit a kind.
    fn habits(&mut self, kind: Kind) -> Habits {
        let spread = match kind {
            Kind::Single => 1,
            Kind::Full => self.maker.random.pick(&FULL_SPREADS),
            Kind::Overtaken => self.maker.random.pick(&OVERTAKEN_SPREADS),
            _ => CLASSES,
        };
        let mut classes = all_classes();
        while classes.len() > spread {
            classes.swap_remove(self.maker.random.below(classes.len()));
        }
        let long = kind == Kind::Full && self.maker.random.chance(FULL_LONG);
        let short = matches!(kind, Kind::Again | Kind::Overtaken);
        Habits { classes, few_ids: kind == Kind::Ids, long, short }
    }

    /// The next event of a kind.
    fn event(&mut self, kind: Kind) -> Event {
        let special = self.maker.random.chance(SPECIAL);
        match kind {
            Kind::Mixed => self.mixed(),
            Kind::Full => self.full_house(),
            Kind::Again => self.again(),
            Kind::Overtaken => self.overtaken(),
            Kind::Numbers if special => self.maker.confirm_wrong(),
            Kind::Damaged if special => self.maker.offer_broken(),
            Kind::Odd if special => self.maker.odd(),
            Kind::Unknown if special => self.maker.unknown(),
            Kind::Random => self.maker.chance_bytes(),
            _ => self.sensible(),
        }
    }

    /// The next event of a mixed stream.
    fn mixed(&mut self) -> Event {
        if self.piece_left == 0 {
            self.piece = self.maker.random.pick(&PIECES);
            self.piece_left = PIECE_LEAST + self.maker.random.below(PIECE_SPAN);
            self.maker.habits = self.habits(self.piece);
        }
        self.piece_left -= 1;
        self.event(self.piece)
    }

    /// Sensible traffic that keeps the usual number queued.
    fn sensible(&mut self) -> Event {
        let few = self.maker.site.queued() < USUAL_QUEUED;
        self.maker.traffic(if few { GROWING } else { SHRINKING })
    }

    /// Short requests that come and go, with ids that were confirmed before.
    fn again(&mut self) -> Event {
        if self.maker.random.chance(AGAIN) {
            return self.maker.offer_confirmed();
        }
        self.maker.traffic(PASSING)
    }

    /// Short requests, of which the last that came is confirmed first.
    fn overtaken(&mut self) -> Event {
        if self.maker.random.chance(STRAY) {
            return self.sensible();
        }
        let works = !self.maker.busy().is_empty();
        match self.maker.random.below(5) {
            0 => self.maker.offer(),
            1..=3 if works => self.maker.work(),
            _ => self.maker.confirm_last(),
        }
    }

    /// Traffic that fills the site and keeps it full.
    fn full_house(&mut self) -> Event {
        if self.maker.random.below(GATHER_TURN) == 0 {
            self.gathers = !self.gathers;
        }
        if self.maker.random.chance(FULL_AGAIN) {
            return self.maker.offer_again();
        }
        if self.maker.random.chance(FULL_BROKEN) {
            return self.maker.offer_broken();
        }
        let full = self.maker.site.queued() == SLOTS;
        let weights = match (full, self.gathers) {
            (false, _) => FILLING,
            (true, true) => GATHERING,
            (true, false) => HOLDING,
        };
        self.maker.traffic(weights)
    }

    /// Writes the whole stream.
    pub fn write_to(self, out: &mut impl Write) -> io::Result<()> {
        for bytes in self {
            out.write_all(&bytes)?;
        }
        Ok(())
    }
}

impl Iterator for Stream {
    type Item = Vec<u8>;

    /// The bytes of the next event, cut short at the end of a stream with a short tail.
    fn next(&mut self) -> Option<Vec<u8>> {
        self.left = self.left.checked_sub(1)?;
        let event = self.event(self.kind);
        self.maker.act(&event);
        let mut bytes = event.encode().to_vec();
        if self.left == 0 && self.kind == Kind::Tails {
            bytes.truncate(1 + self.maker.random.below(EVENT_BYTES - 1));
        }
        Some(bytes)
    }
}
