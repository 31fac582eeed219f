//! A site with its two runs of cells, and every number in them by its field.

use shpendorak::raw::{
    CLASSES, KEPT, MOST_OPS, PLACES, QUERIES, Query, RUN_LENGTH, SLOTS, Site, Slot,
};

/// What a call is made on: a site and both runs of cells.
#[derive(Clone, Debug, PartialEq, Eq)]
pub struct Subject {
    /// The site.
    pub site: Site,
    /// The committed cells, 1,024 unless their length is damaged.
    pub committed: Vec<u32>,
    /// The working cells, 1,024 unless their length is damaged.
    pub working: Vec<u32>,
}

/// One number of a subject, wherever it stands.
pub enum Spot<'a> {
    /// An 8-bit number.
    Byte(&'a mut u8),
    /// A 16-bit number.
    Half(&'a mut u16),
    /// A 32-bit number.
    Word(&'a mut u32),
    /// A 64-bit number.
    Long(&'a mut u64),
}

impl Spot<'_> {
    /// The number that stands there.
    pub fn get(&self) -> u64 {
        match self {
            Spot::Byte(byte) => u64::from(**byte),
            Spot::Half(half) => u64::from(**half),
            Spot::Word(word) => u64::from(**word),
            Spot::Long(long) => **long,
        }
    }

    /// Puts a number there, as much of it as the spot can hold.
    pub fn set(&mut self, number: u64) {
        match self {
            Spot::Byte(byte) => **byte = number as u8,
            Spot::Half(half) => **half = number as u16,
            Spot::Word(word) => **word = number as u32,
            Spot::Long(long) => **long = number,
        }
    }

    /// How many bits the spot has.
    pub fn bits(&self) -> usize {
        match self {
            Spot::Byte(_) => u8::BITS as usize,
            Spot::Half(_) => u16::BITS as usize,
            Spot::Word(_) => u32::BITS as usize,
            Spot::Long(_) => u64::BITS as usize,
        }
    }
}

/// A field: its name, how many such numbers there are, and where each stands.
pub struct Field {
    /// What the number is.
    pub name: &'static str,
    /// How many there are in a subject with right cells.
    pub count: usize,
    /// Where each of them stands, counted from 0.
    pub spot: fn(&mut Subject, usize) -> Spot<'_>,
}

/// Operations of all slots together.
const OPS: usize = SLOTS * MOST_OPS;

/// Every number of a subject; a new field of the site is a new row.
pub static FIELDS: [Field; 24] = [
    Field { name: "id", count: SLOTS, spot: |s, at| Spot::Word(&mut s.site.slots[at].id) },
    Field { name: "class", count: SLOTS, spot: |s, at| Spot::Byte(&mut s.site.slots[at].class) },
    Field { name: "count", count: SLOTS, spot: |s, at| Spot::Byte(&mut s.site.slots[at].count) },
    Field { name: "code", count: OPS, spot: |s, at| Spot::Byte(&mut op(s, at).code) },
    Field { name: "cell", count: OPS, spot: |s, at| Spot::Byte(&mut op(s, at).cell) },
    Field { name: "second", count: OPS, spot: |s, at| Spot::Byte(&mut op(s, at).second) },
    Field { name: "amount", count: OPS, spot: |s, at| Spot::Word(&mut op(s, at).amount) },
    Field { name: "number", count: SLOTS, spot: |s, at| Spot::Word(&mut s.site.slots[at].number) },
    Field { name: "done", count: SLOTS, spot: |s, at| Spot::Byte(&mut s.site.slots[at].done) },
    Field { name: "mark", count: SLOTS, spot: |s, at| Spot::Byte(&mut s.site.slots[at].mark) },
    Field { name: "backs", count: SLOTS, spot: |s, at| Spot::Long(&mut s.site.slots[at].backs) },
    Field { name: "place", count: PLACES, spot: |s, at| Spot::Byte(&mut s.site.queue[at]) },
    Field { name: "length", count: CLASSES, spot: |s, at| Spot::Byte(&mut s.site.lens[at]) },
    Field { name: "low", count: 1, spot: |s, _| Spot::Long(&mut s.site.low) },
    Field { name: "high", count: 1, spot: |s, _| Spot::Long(&mut s.site.high) },
    Field { name: "confirmations", count: 1, spot: |s, _| Spot::Word(&mut s.site.confirmations) },
    Field { name: "commits", count: 1, spot: |s, _| Spot::Word(&mut s.site.commits) },
    Field { name: "kept", count: KEPT, spot: |s, at| Spot::Word(&mut s.site.kept[at]) },
    Field {
        name: "mask",
        count: QUERIES,
        spot: |s, at| Spot::Half(&mut s.site.queries[at].classes),
    },
    Field {
        name: "begun",
        count: QUERIES,
        spot: |s, at| Spot::Word(&mut s.site.queries[at].begun),
    },
    Field { name: "queries", count: 1, spot: |s, _| Spot::Word(&mut s.site.begun) },
    Field { name: "sum", count: CLASSES, spot: |s, at| Spot::Half(&mut s.site.sums[at]) },
    Field { name: "committed", count: RUN_LENGTH, spot: |s, at| Spot::Word(&mut s.committed[at]) },
    Field { name: "working", count: RUN_LENGTH, spot: |s, at| Spot::Word(&mut s.working[at]) },
];

/// An operation, counted from 0 over all slots.
fn op(subject: &mut Subject, at: usize) -> &mut shpendorak::Op {
    &mut subject.site.slots[at / MOST_OPS].ops[at % MOST_OPS]
}

/// How many numbers a subject has.
pub fn spots() -> usize {
    FIELDS.iter().map(|field| field.count).sum()
}

/// The field of a number, counted from 0 over all fields, and its place in that field.
pub fn field_of(mut at: usize) -> (&'static Field, usize) {
    for field in &FIELDS {
        if at < field.count {
            return (field, at);
        }
        at -= field.count;
    }
    unreachable!("a subject has no such number");
}

impl Subject {
    /// A site with nothing in it, and all cells 0.
    pub fn empty() -> Subject {
        let site = Site {
            slots: [Slot::default(); SLOTS],
            queue: [0; PLACES],
            lens: [0; CLASSES],
            low: 0,
            high: 0,
            confirmations: 0,
            commits: 0,
            kept: [0; KEPT],
            queries: [Query::default(); QUERIES],
            begun: 0,
            sums: [0; CLASSES],
        };
        Subject { site, committed: vec![0; RUN_LENGTH], working: vec![0; RUN_LENGTH] }
    }

    /// Whether both runs are 1,024 long.
    pub fn has_right_cells(&self) -> bool {
        self.committed.len() == RUN_LENGTH && self.working.len() == RUN_LENGTH
    }

    /// The first number in which another subject differs from this one, in words; none if they
    /// are alike.
    pub fn first_difference(&self, other: &Subject) -> Option<String> {
        if self == other {
            return None;
        }
        let (mut one, mut two) = (self.with_right_cells(), other.with_right_cells());
        let number = (0..spots()).find_map(|at| {
            let (field, place) = field_of(at);
            let (one, two) = ((field.spot)(&mut one, place), (field.spot)(&mut two, place));
            let (one, two) = (one.get(), two.get());
            (one != two).then(|| format!("{} {place} is {two} instead of {one}", field.name))
        });
        number.or_else(|| Some("a cell past the last, or a length, differs".to_string()))
    }

    /// A copy with both runs cut or filled up with 0 to 1,024 cells.
    fn with_right_cells(&self) -> Subject {
        let mut copy = self.clone();
        copy.committed.resize(RUN_LENGTH, 0);
        copy.working.resize(RUN_LENGTH, 0);
        copy
    }
}
