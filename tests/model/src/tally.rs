//! Counts of what the answers were.

use crate::answer::{Answer, BAD_RECORD, ID_KEPT, NUMBERS_USED_UP};
use crate::event::{word_of, WORDS};
use crate::record::MAX_OPS;
use std::io::{self, Write};

/// What commits are called by how often they were put back.
const BACKS: [&str; 3] = ["never put back", "put back once", "put back again"];

/// How often each answer occurred.
#[derive(Clone, Debug, Default)]
pub struct Tally {
    /// How many streams were compared.
    pub streams: u64,
    /// How often each word occurred.
    words: [u64; WORDS.len()],
    /// How often each refusal occurred, by its number.
    refusals: [u64; ID_KEPT as usize + 1],
    /// How many commits had each mark.
    marks: [u64; MAX_OPS + 1],
    /// How many commits were never put back, once, and more often.
    backs: [u64; BACKS.len()],
    /// How many confirmations put a head back.
    put_back: u64,
    /// The largest W answered.
    largest_w: usize,
    /// The most times that a request was put back before its commit.
    most_backs: u64,
}

impl Tally {
    /// Counts an answer.
    pub fn count(&mut self, answer: &Answer) {
        self.words[word_of(answer)] += 1;
        match *answer {
            Answer::Refused(number) => self.refusals[usize::from(number)] += 1,
            Answer::Committed { mark, backs, .. } => {
                self.marks[mark] += 1;
                self.backs[backs.min(2) as usize] += 1;
                self.most_backs = self.most_backs.max(backs);
            }
            Answer::Waiting { w, put_back, .. } => {
                self.put_back += u64::from(put_back != 0);
                self.largest_w = self.largest_w.max(w);
            }
            _ => {}
        }
    }

    /// How many events were counted.
    pub fn events(&self) -> u64 {
        self.words.iter().sum()
    }

    /// The words, the refusals that can be reached, the marks and the put-backs that never occurred.
    pub fn missing(&self) -> Vec<String> {
        let words = WORDS.iter().zip(self.words).filter(|(_, count)| *count == 0);
        let refusals = reachable().filter(|&number| self.refusals[usize::from(number)] == 0);
        let marks = (0..).zip(self.marks).filter(|(_, count)| *count == 0);
        let backs = BACKS.iter().zip(self.backs).filter(|(_, count)| *count == 0);
        let words = words.chain(backs).map(|(word, _)| word.to_string());
        let refusals = refusals.map(|number| format!("refused {number}"));
        words.chain(refusals).chain(marks.map(|(mark, _)| mark_name(mark))).collect()
    }

    /// Writes the counts as a table.
    pub fn write_to(&self, out: &mut impl Write) -> io::Result<()> {
        writeln!(out, "{} events in {} streams compared", self.events(), self.streams)?;
        let words = WORDS.iter().zip(self.words);
        let refusals = reachable().map(|number| (number, self.refusals[usize::from(number)]));
        for (word, count) in words {
            row(out, word, count)?;
        }
        for (number, count) in refusals {
            row(out, &format!("refused {number}"), count)?;
        }
        for (mark, count) in (0..).zip(self.marks) {
            row(out, &mark_name(mark), count)?;
        }
        for (name, count) in BACKS.iter().zip(self.backs) {
            row(out, name, count)?;
        }
        row(out, "heads put back", self.put_back)?;
        row(out, "largest W", self.largest_w as u64)?;
        row(out, "most put-backs", self.most_backs)
    }
}

/// The refusals a driving program can reach: 6 would take 4,294,967,295 confirmations.
fn reachable() -> impl Iterator<Item = u8> {
    (BAD_RECORD..=ID_KEPT).filter(|&number| number != NUMBERS_USED_UP)
}

/// What commits with a mark are called.
fn mark_name(mark: usize) -> String {
    format!("commits marked {mark}")
}

/// Writes one row of the table.
fn row(out: &mut impl Write, name: &str, count: u64) -> io::Result<()> {
    writeln!(out, "{name:<18}{count:>12}")
}
