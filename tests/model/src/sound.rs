//! The sound rules, checked on the model by means of their own.

use crate::record::{Op, CELLS, CLASSES, MAX_OPS};
use crate::site::{Cells, Class, Entry, Item, Reading, Site, KEPT, QUERIES, SLOTS};
use std::collections::HashSet;

/// The last class.
const LAST_CLASS: u8 = 15;
/// The last cell of a class.
const LAST_CELL: u8 = 63;
/// One more than the largest number a cell can hold.
const SPAN: u64 = 1 << 32;

/// A rule and what it says.
type Rule = (fn(&Site) -> bool, &'static str);

/// The sound rules; a later one may count on those before it.
const RULES: [Rule; 25] = [
    (|site| site.classes.len() == CLASSES, "there are 16 classes"),
    (|site| site.entries().all(is_valid), "each record is valid"),
    (|site| site.classes.iter().all(short_enough), "no queue is longer than 136"),
    (Site::slots_stand_once, "every used slot stands exactly once"),
    (Site::stand_in_own_class, "a slot stands in the queue of its class"),
    (|site| differ(site.entries().map(|entry| entry.request.id)), "ids differ"),
    (|site| site.classes.iter().all(confirmed_first), "the confirmed stand before the waiting"),
    (|site| site.classes.iter().all(numbers_rise), "confirmed numbers rise in a queue"),
    (|site| site.readings().all(placed), "an entry has a place from 1 to 8"),
    (|site| site.classes.iter().all(one_entry_each), "a query has one entry at most in a queue"),
    (Site::queries_began_once, "a query began at one count, not above the present one"),
    (|site| site.classes.iter().all(entries_in_order), "entries stand by their count"),
    (|site| differ(site.numbers()), "confirmed numbers differ over the whole site"),
    (Site::numbers_within_count, "confirmed numbers lie between 1 and the count"),
    (Site::counts_agree, "confirmations are commits plus confirmed requests queued"),
    (
        Site::backs_within_count,
        "none was put back more often than there were confirmations and queries",
    ),
    (|site| site.entries().all(done_within_ops), "none has more done than operations"),
    (|site| site.classes.iter().all(only_head_active), "only a head has anything done"),
    (|site| site.classes.iter().all(confirmed_head_open), "a confirmed head is not executed"),
    (|site| site.classes.iter().all(mark_is_right), "the mark is the first that declined"),
    (|site| site.classes.iter().all(working_is_right), "working cells follow the head"),
    (Site::as_many_kept, "the ids of the last 256 confirmations are kept"),
    (|site| !site.kept.contains(&0), "kept ids are not 0"),
    (|site| differ(site.kept.iter().copied()), "kept ids differ"),
    (|site| site.entries().all(|e| site.kept_as_numbered(e)), "a kept id has its number"),
];

impl Site {
    /// Asserts that every sound rule holds.
    pub fn check(&self) {
        assert_eq!(self.breach(), None, "the site is not sound: {self:?}");
    }

    /// Names the first sound rule that is broken, if any.
    pub fn breach(&self) -> Option<&'static str> {
        RULES.iter().find(|(holds, _)| !holds(self)).map(|(_, rule)| *rule)
    }

    /// The definitive numbers of all confirmed requests queued.
    fn numbers(&self) -> impl Iterator<Item = u32> + '_ {
        self.entries().filter_map(|entry| entry.number)
    }

    /// Slots are 0 to 127 and no two queue places hold the same one.
    fn slots_stand_once(&self) -> bool {
        let in_range = self.entries().all(|entry| usize::from(entry.slot) < SLOTS);
        in_range && differ(self.entries().map(|entry| u32::from(entry.slot)))
    }

    /// Each request stands in the queue of the class it names.
    fn stand_in_own_class(&self) -> bool {
        let mut queues = (0..).zip(&self.classes);
        queues.all(|(number, class)| requests(class).all(|e| e.request.class == number))
    }

    /// Each definitive number is between 1 and the count of confirmations.
    fn numbers_within_count(&self) -> bool {
        self.numbers().all(|number| (1..=self.confirmations).contains(&number))
    }

    /// The count of confirmations is the commits plus the confirmed requests queued.
    fn counts_agree(&self) -> bool {
        let total = u64::from(self.commits) + self.numbers().count() as u64;
        u64::from(self.confirmations) == total
    }

    /// No request was put back more often than there were confirmations and queries.
    fn backs_within_count(&self) -> bool {
        let most = u64::from(self.confirmations) + u64::from(self.queries);
        self.entries().all(|entry| entry.backs <= most)
    }

    /// The entries of a query agree in the count at its beginning, which is not above the present.
    fn queries_began_once(&self) -> bool {
        let one = |reading: &Reading| {
            let mut same = self.readings().filter(|other| other.place == reading.place);
            same.all(|other| other.begun == reading.begun)
        };
        self.readings().all(|reading| reading.begun <= self.confirmations && one(reading))
    }

    /// As many ids are kept as numbers were given, at most 256.
    fn as_many_kept(&self) -> bool {
        self.kept.len() == KEPT.min(self.confirmations as usize)
    }

    /// A queued request's id is kept exactly if its number is, and under that number.
    fn kept_as_numbered(&self, entry: &Entry) -> bool {
        let first = u64::from(self.confirmations) + 1 - self.kept.len() as u64;
        let at = self.kept.iter().position(|&id| id == entry.request.id);
        let number = entry.number.map(u64::from).filter(|&number| number >= first);
        at.map(|place| first + place as u64) == number
    }
}

/// Whether a queue is at most 136 long: 128 requests and an entry of each of 8 queries.
fn short_enough(class: &Class) -> bool {
    class.queue.len() <= SLOTS + usize::from(QUERIES)
}

/// The requests of a queue, head first.
fn requests(class: &Class) -> impl Iterator<Item = &Entry> {
    class.queue.iter().filter_map(Item::request)
}

/// The head, if it is a request.
fn head(class: &Class) -> Option<&Entry> {
    class.queue.first().and_then(Item::request)
}

/// Whether the entry of a query has one of the places 1 to 8.
fn placed(reading: &Reading) -> bool {
    (1..=QUERIES).contains(&reading.place)
}

/// Whether no query has two entries in a queue.
fn one_entry_each(class: &Class) -> bool {
    differ(class.queue.iter().filter_map(Item::query).map(|reading| reading.place.into()))
}

/// Whether the entries of queries stand by the count at their beginning: in its order, each behind
/// every number up to it and before every number above it, and before the waiting.
fn entries_in_order(class: &Class) -> bool {
    let readings = class.queue.iter().filter_map(Item::query);
    if !readings.is_sorted_by_key(|reading| reading.begun) {
        return false;
    }
    let queries = class.queue.iter().enumerate().filter_map(|(at, item)| Some((at, item.query()?)));
    queries.into_iter().all(|(at, reading)| {
        let numbers = |part: &[Item]| -> Vec<Option<u32>> {
            part.iter().filter_map(Item::request).map(|entry| entry.number).collect()
        };
        let (before, behind) = (numbers(&class.queue[..at]), numbers(&class.queue[at..]));
        before.iter().all(|number| number.is_some_and(|number| number <= reading.begun))
            && behind.iter().all(|number| number.is_none_or(|number| number > reading.begun))
    })
}

/// Whether a request keeps every rule of the record.
fn is_valid(entry: &Entry) -> bool {
    let request = &entry.request;
    request.id > 0
        && request.class <= LAST_CLASS
        && (1..=MAX_OPS).contains(&request.ops.len())
        && request.ops.iter().all(|op| match *op {
            Op::Put { cell, .. } | Op::Add { cell, .. } | Op::Need { cell, .. } => {
                cell <= LAST_CELL
            }
            Op::Move { cell, second, .. } => {
                cell <= LAST_CELL && second <= LAST_CELL && cell != second
            }
        })
}

/// Whether all values differ.
fn differ(mut values: impl Iterator<Item = u32>) -> bool {
    let mut seen = HashSet::new();
    values.all(|value| seen.insert(value))
}

/// Whether no waiting request stands before a confirmed one.
fn confirmed_first(class: &Class) -> bool {
    requests(class).is_sorted_by_key(|entry| entry.number.is_none())
}

/// Whether the confirmed numbers of a queue rise from head to end.
fn numbers_rise(class: &Class) -> bool {
    let numbers: Vec<u32> = requests(class).filter_map(|entry| entry.number).collect();
    numbers.windows(2).all(|pair| pair[0] < pair[1])
}

/// Whether no more is done than there are operations.
fn done_within_ops(entry: &Entry) -> bool {
    entry.done <= entry.request.ops.len()
}

/// Whether nothing but the head has anything done or is declined.
fn only_head_active(class: &Class) -> bool {
    let behind = class.queue.iter().skip(1).filter_map(Item::request);
    behind.into_iter().all(|entry| entry.done == 0 && entry.mark == 0)
}

/// Whether a confirmed head has operations left.
fn confirmed_head_open(class: &Class) -> bool {
    head(class).is_none_or(|head| head.number.is_none() || head.to_do() > 0)
}

/// Whether the head's mark is the place of the first of its done operations that declined, or 0.
fn mark_is_right(class: &Class) -> bool {
    head(class).is_none_or(|head| {
        let declines =
            |&count: &usize| run_ops(&class.committed, &head.request.ops[..count]).is_none();
        head.mark == (1..=head.done).find(declines).unwrap_or(0)
    })
}

/// Whether the working cells are the committed ones after the head's done operations.
fn working_is_right(class: &Class) -> bool {
    let done = head(class).map_or(&[][..], |head| &head.request.ops[..head.done]);
    class.working == run_ops(&class.committed, done).unwrap_or(class.committed)
}

/// The cells after some operations; none if one of them declines.
fn run_ops(start: &Cells, ops: &[Op]) -> Option<Cells> {
    let mut cells: [u64; CELLS] = start.map(u64::from);
    for op in ops {
        match *op {
            Op::Put { cell, amount } => cells[cell as usize] = amount.into(),
            Op::Add { cell, amount } => {
                cells[cell as usize] = (cells[cell as usize] + u64::from(amount)) % SPAN;
            }
            Op::Need { cell, amount } if cells[cell as usize] < amount.into() => return None,
            Op::Need { .. } => {}
            Op::Move { cell, second, amount } => {
                let short = cells[cell as usize] < amount.into();
                if short || cells[second as usize] + u64::from(amount) >= SPAN {
                    return None;
                }
                cells[cell as usize] -= u64::from(amount);
                cells[second as usize] += u64::from(amount);
            }
        }
    }
    Some(cells.map(|cell| u32::try_from(cell).expect("a cell is below 2^32")))
}
