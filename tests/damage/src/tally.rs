//! Counts of the calls made, of what they answered, and of the rules broken.

use crate::call::{NAMES, Outcome, State};
use crate::rules::RULES;
use crate::subject::spots;
use shpendorak::{Answer, Refusal};
use std::io::{self, Write};

/// The answers other than a refusal.
const ANSWERS: [&str; 11] = [
    "queued",
    "stepped",
    "executed",
    "committed",
    "waiting",
    "value",
    "to-do",
    "unconfirmed",
    "started",
    "begun",
    "entry",
];
/// The place of an answer's word.
fn place_of(answer: Answer) -> usize {
    let word = match answer {
        Answer::Queued { .. } => "queued",
        Answer::Stepped { .. } => "stepped",
        Answer::Executed { .. } => "executed",
        Answer::Committed { .. } => "committed",
        Answer::Waiting { .. } => "waiting",
        Answer::Value(_) => "value",
        Answer::ToDo { .. } => "to-do",
        Answer::Unconfirmed { .. } => "unconfirmed",
        Answer::Started => "started",
        Answer::Begun { .. } => "begun",
        Answer::Entry { .. } => "entry",
        _ => unreachable!("{answer:?} is no answer of these calls"),
    };
    ANSWERS.iter().position(|known| *known == word).expect("every answer has a word")
}

/// The last refusal of a call.
const REFUSALS: usize = Refusal::QueriesUsedUp as usize;

/// What happened so far.
#[derive(Clone, Debug)]
pub struct Tally {
    /// How many calls of each kind were made.
    calls: [u64; NAMES.len()],
    /// How many calls were made on wrong cells, unsound and sound sites.
    states: [u64; 3],
    /// How often each answer was given.
    answers: [u64; ANSWERS.len()],
    /// How often each refusal was given.
    refusals: [u64; REFUSALS],
    /// How many counts of times put back, above 0, were as high as the answers before them allow.
    pub unluckiest: u64,
    /// How many single numbers were damaged, one after another.
    pub numbers: usize,
    /// How many subjects were tried, each damaged in some way or left as it was.
    pub tried: u64,
    /// How many of them were sound.
    pub sound: u64,
    /// In how many subjects each rule was broken.
    broken: [u64; RULES.len()],
    /// In how many it was the only one.
    alone: [u64; RULES.len()],
}

impl Default for Tally {
    /// Nothing has happened yet.
    fn default() -> Tally {
        Tally {
            calls: [0; NAMES.len()],
            states: [0; 3],
            answers: [0; ANSWERS.len()],
            refusals: [0; REFUSALS],
            unluckiest: 0,
            numbers: 0,
            tried: 0,
            sound: 0,
            broken: [0; RULES.len()],
            alone: [0; RULES.len()],
        }
    }
}

impl Tally {
    /// Counts a call, what it found and what it answered.
    pub fn count(&mut self, kind: usize, state: State, outcome: &Outcome) {
        self.calls[kind] += 1;
        self.states[state as usize] += 1;
        match outcome.answer {
            Ok(answer) => self.answers[place_of(answer)] += 1,
            Err(refusal) => self.refusals[usize::from(refusal.number()) - 1] += 1,
        }
    }

    /// Counts the rules that a subject breaks.
    pub fn count_broken(&mut self, broken: &[usize]) {
        for rule in broken {
            self.broken[*rule] += 1;
        }
        if let [rule] = broken {
            self.alone[*rule] += 1;
        }
    }

    /// How many calls were made.
    pub fn made(&self) -> u64 {
        self.calls.iter().sum()
    }

    /// The refusals that calls can give, each with how often it was given.
    fn refusals(&self) -> impl Iterator<Item = (u64, u64)> {
        (1..).zip(self.refusals).filter(|(number, _)| Refusal::numbered(*number).is_some())
    }

    /// The answers that never occurred, a fresh start being the beginning of every stream; and the
    /// highest count of times put back.
    pub fn missing_answers(&self) -> Vec<String> {
        let answers = ANSWERS.iter().zip(self.answers).filter(|(_, count)| *count == 0);
        let words = answers.map(|(word, _)| word.to_string()).filter(|word| word != "started");
        let highest = (self.unluckiest == 0).then(|| "put back as often as can be".to_string());
        words.chain(highest).collect()
    }

    /// What should have occurred and never did.
    pub fn missing(&self) -> Vec<String> {
        let rules = RULES.iter().zip(self.alone).filter(|(_, count)| *count == 0);
        let refusals = self.refusals().filter(|(_, count)| *count == 0);
        let rules = rules.map(|(rule, _)| format!("broken alone: {}", rule.words));
        let refusals = refusals.map(|(number, _)| format!("refused {number}"));
        let numbers = (self.numbers < spots()).then(|| "each number damaged".to_string());
        rules.chain(self.missing_answers()).chain(refusals).chain(numbers).collect()
    }

    /// Writes the counts of a run without damage.
    pub fn write_traffic_to(&self, out: &mut impl Write) -> io::Result<()> {
        writeln!(out, "{} calls, each as the model has it", self.made())?;
        line(out, "calls", NAMES.iter().zip(self.calls))?;
        line(out, "answers", ANSWERS.iter().zip(self.answers))?;
        writeln!(out, "{} times a count of put-backs as high as it can be", self.unluckiest)?;
        line(out, "refused", self.refusals())
    }

    /// Writes the counts.
    pub fn write_to(&self, out: &mut impl Write) -> io::Result<()> {
        let [wrong, unsound, sound] = self.states;
        writeln!(out, "{} calls, each as the rules of the build have it", self.made())?;
        writeln!(out, "on sound sites {sound}, unsound {unsound}, wrong cells {wrong}")?;
        writeln!(out, "{} sites tried beside the traffic, {} sound", self.tried, self.sound)?;
        let times = self.numbers / spots();
        writeln!(out, "each of the {} numbers of a site damaged {times} times or more", spots())?;
        line(out, "calls", NAMES.iter().zip(self.calls))?;
        line(out, "answers", ANSWERS.iter().zip(self.answers))?;
        line(out, "refused", self.refusals())?;
        writeln!(out, "{:<54}{:>8}{:>8}", "sound rule", "broken", "alone")?;
        for ((rule, broken), alone) in RULES.iter().zip(self.broken).zip(self.alone) {
            writeln!(out, "{:<54}{broken:>8}{alone:>8}", rule.words)?;
        }
        Ok(())
    }
}

/// Writes names with their counts in one line.
fn line<N: std::fmt::Display>(
    out: &mut impl Write,
    title: &str,
    counts: impl Iterator<Item = (N, u64)>,
) -> io::Result<()> {
    let counts: Vec<String> = counts.map(|(name, count)| format!("{name} {count}")).collect();
    writeln!(out, "{title}: {}", counts.join(", "))
}
