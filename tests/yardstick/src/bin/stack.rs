//! The stack that each call of the archive needs at its deepest, over many states of a site.
//!
//! `stack [LIMITS]`: the file has a line `NAME BYTES` for each call; the program fails where a call needs more, or has no line.

use std::collections::HashMap;
use std::env;
use std::fs;
use std::process::ExitCode;
use yardstick::call::{Call, Held, Takes};
use yardstick::load::{LOADS, Script};
use yardstick::plain::Plain;
use yardstick::raw::Site;
use yardstick::stack::{Asked, Gauge};

/// How many calls are made at each load.
const CALLS: usize = 4_000;
/// The seed of the calls.
const SEED: u64 = 1;
/// A length that no queue has.
const TOO_LONG: u8 = 200;
/// One in so many calls is made on spoiled sites and cells too.
const SPOILED_TURN: usize = 50;

/// The calls in the order of the table.
const NAMES: [&str; 7] = ["fresh", "offer", "confirm", "work", "read", "look", "query"];

/// The place of a call in the table.
fn row_of(asked: &Asked) -> usize {
    match asked {
        Asked::Fresh => 0,
        Asked::Call(Call::Offer(_)) => 1,
        Asked::Call(Call::Confirm { .. }) => 2,
        Asked::Call(Call::Work { .. }) => 3,
        Asked::Call(Call::Read { .. }) => 4,
        Asked::Call(Call::Look { .. }) => 5,
        Asked::Call(Call::Query { .. }) => 6,
    }
}

/// What a call needed so far.
#[derive(Clone, Copy, Default)]
struct Row {
    /// How often it was made.
    made: usize,
    /// The most bytes of stack.
    most: usize,
}

/// Makes calls and keeps the most that each needed.
#[derive(Default)]
struct Table {
    /// The painted stack.
    gauge: Gauge,
    /// What each call needed, in the order of the names.
    rows: [Row; NAMES.len()],
}

impl Table {
    /// Makes a call on a site.
    fn take(&mut self, held: &mut Held, asked: &Asked) {
        let (_, bytes) = self.gauge.take(held, asked);
        let row = &mut self.rows[row_of(asked)];
        row.made += 1;
        row.most = row.most.max(bytes);
    }

    /// Makes a call on copies of a site with wrong cells, that is not sound, and whose numbers are used up.
    fn take_spoiled(&mut self, held: &Held, asked: &Asked) {
        let mut short = held.clone();
        short.committed.pop();
        let mut unsound = held.clone();
        unsound.site.lens[0] = TOO_LONG;
        let mut used_up = Plain::fresh().held().clone();
        (used_up.site.confirmations, used_up.site.commits) = (u32::MAX, u32::MAX);
        used_up.site.begun = u32::MAX;
        used_up.site.kept = std::array::from_fn(|place| 1 + place as u32);
        for mut spoiled in [short, unsound, used_up] {
            self.take(&mut spoiled, asked);
        }
    }

    /// Makes all calls of a load, from a fresh site.
    fn take_load(&mut self, script: &Script) {
        let mut held = Plain::fresh().held().clone();
        self.take(&mut held, &Asked::Fresh);
        for (turn, &call) in script.filling.iter().chain(&script.calls).enumerate() {
            let asked = Asked::Call(call);
            if turn % SPOILED_TURN == 0 {
                self.take_spoiled(&held, &asked);
                self.take_spoiled(&held, &Asked::Fresh);
            }
            self.take(&mut held, &asked);
        }
    }

    /// Prints the table.
    fn print(&self) {
        let size = size_of::<Site>();
        println!("stack of each call from its return address down; a site has {size} bytes");
        println!("{:<10}{:>8}{:>10}{:>9}", "call", "made", "bytes", "sites");
        for (name, row) in NAMES.iter().zip(&self.rows) {
            let sites = row.most as f64 / size as f64;
            println!("{name:<10}{:>8}{:>10}{sites:>9.2}", row.made, row.most);
        }
    }
}

/// The limits of a file, by name.
fn limits_in(path: &str) -> Result<HashMap<String, usize>, String> {
    let text = fs::read_to_string(path).map_err(|problem| format!("{path}: {problem}"))?;
    text.lines().map(limit_on).collect()
}

/// The name and limit on a line.
fn limit_on(line: &str) -> Result<(String, usize), String> {
    let (name, bytes) = line.split_once(' ').ok_or(format!("{line} is no limit"))?;
    let bytes = bytes.trim().parse().map_err(|_| format!("{line} is no limit"))?;
    Ok((name.to_string(), bytes))
}

/// Each call that needs more than its limit, or has none.
fn over(table: &Table, limits: &HashMap<String, usize>) -> Vec<String> {
    let rows = NAMES.iter().zip(&table.rows);
    let over = rows.filter(|&(&name, row)| limits.get(name).is_none_or(|&limit| row.most > limit));
    over.map(|(name, row)| format!("{name} needs {} bytes", row.most)).collect()
}

/// Measures all calls, prints the table and holds it to the limits given.
fn measure() -> Result<(), String> {
    let limits = env::args().nth(1).map(|path| limits_in(&path)).transpose()?;
    let mut table = Table::default();
    for load in LOADS {
        table.take_load(&Script::new(load, SEED, CALLS));
    }
    table.print();
    let over = limits.map_or(Vec::new(), |limits| over(&table, &limits));
    if over.is_empty() { Ok(()) } else { Err(format!("above the limit: {}", over.join(", "))) }
}

/// Fails where a call needs more than its limit.
fn main() -> ExitCode {
    match measure() {
        Ok(()) => ExitCode::SUCCESS,
        Err(problem) => {
            println!("{problem}");
            ExitCode::FAILURE
        }
    }
}
