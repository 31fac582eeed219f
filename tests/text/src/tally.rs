//! Counts of what the calls answered.

use crate::call::Call;
use model::record::MAX_OPS;
use model::text::Refusal;
use shpendorak::raw::{Numbers, WRITTEN};
use std::io::{self, Write};

/// The last line that can be the first bad one: that of an eighth operation.
const LAST_LINE: usize = MAX_OPS + 2;
/// What a call can answer: a text or a record, a refusal, and a bad text by its line.
const OUTCOMES: usize = 4 + LAST_LINE;

/// What happened so far.
#[derive(Clone, Debug, Default)]
pub struct Tally {
    /// How many records were made.
    pub records: u64,
    /// How often each outcome occurred.
    counts: [u64; OUTCOMES],
}

impl Tally {
    /// Counts what a call answered.
    pub fn count(&mut self, call: &Call, answer: &Numbers) {
        let [what, number, line, ..] = *answer;
        let outcome = match call {
            Call::Write { .. } if what == WRITTEN => 0,
            Call::Read { .. } if what == WRITTEN => 1,
            _ if number == Refusal::BadRecord.number().into() => 2,
            _ if number == Refusal::ShortBuffer.number().into() => 3,
            _ => 3 + line as usize,
        };
        self.counts[outcome] += 1;
    }

    /// What should have occurred and never did.
    pub fn missing(&self) -> Vec<String> {
        let never = names().into_iter().zip(self.counts).filter(|(_, count)| *count == 0);
        never.map(|(name, _)| name).collect()
    }

    /// Writes the counts as a table.
    pub fn write_to(&self, out: &mut impl Write) -> io::Result<()> {
        let calls: u64 = self.counts.iter().sum();
        writeln!(out, "{} records and their texts, {calls} calls compared", self.records)?;
        for (name, count) in names().iter().zip(self.counts) {
            writeln!(out, "{name:<24}{count:>12}")?;
        }
        Ok(())
    }
}

/// The names of the outcomes, in the order of their counts.
fn names() -> Vec<String> {
    let first = ["text written", "record written", "refused 3", "refused 16"];
    let lines = (1..=LAST_LINE).map(|line| format!("refused 15 at line {line}"));
    first.into_iter().map(String::from).chain(lines).collect()
}
