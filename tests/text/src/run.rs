//! The run: valid records and their texts, then changed ones, each held against the model.

use crate::call::{Call, Given, MOST_LENT, Outcome, SPARE, due};
use crate::make;
use crate::odd;
use crate::tally::Tally;
use model::random::Random;
use model::record::{self, RECORD_BYTES};

/// A difference, in words.
pub type Difference = String;

/// A run in progress.
pub struct Run {
    /// What happened so far.
    pub tally: Tally,
    /// Where chance comes from.
    random: Random,
}

impl Run {
    /// A run that starts from a seed.
    pub fn new(seed: u64) -> Run {
        Run { tally: Tally::default(), random: Random::new(seed) }
    }

    /// Goes over so many records; the first difference, if any.
    pub fn go(&mut self, records: u64) -> Result<(), Difference> {
        for _ in 0..records {
            let booking = record::write(&make::request(&mut self.random));
            let text = self.valid(&booking)?;
            self.changed_texts(&text)?;
            self.broken_records(&booking)?;
            self.tally.records += 1;
        }
        Ok(())
    }

    /// A valid record is written and its text is read back; the text.
    fn valid(&mut self, booking: &[u8; RECORD_BYTES]) -> Result<Vec<u8>, Difference> {
        let text = self.every_length(Call::Write { booking: booking.to_vec() })?;
        let again = self.every_length(Call::Read { text: text.clone() })?;
        if again != booking {
            return Err(format!("{} is read back as {again:?}", text.escape_ascii()));
        }
        Ok(text)
    }

    /// Makes a call that gives a result, with buffers of every length up to beyond it; the result.
    fn every_length(&mut self, call: Call) -> Result<Vec<u8>, Difference> {
        let given = call.given();
        let Ok(result) = &given else {
            return Err(format!("the model has {given:?} for the valid {call:?}"));
        };
        for lent in 0..=result.len() + SPARE {
            self.hold(&call, &given, lent)?;
        }
        Ok(result.clone())
    }

    /// A text is changed in one byte, and another in more.
    fn changed_texts(&mut self, text: &[u8]) -> Result<(), Difference> {
        let one = self.random.pick(&odd::ONE_BYTE)(&mut self.random, text);
        let more = self.random.pick(&odd::MORE)(&mut self.random, text);
        for text in [one, more] {
            self.some_lengths(Call::Read { text })?;
        }
        Ok(())
    }

    /// A record is broken in a byte, and another cut or made longer.
    fn broken_records(&mut self, valid: &[u8; RECORD_BYTES]) -> Result<(), Difference> {
        let broken = odd::record(&mut self.random, valid);
        let other = odd::length(&mut self.random, valid);
        for booking in [broken, other] {
            self.some_lengths(Call::Write { booking })?;
        }
        Ok(())
    }

    /// Makes a call with buffers that are empty, that hold any result or all but its last byte, or
    /// that have any length.
    fn some_lengths(&mut self, call: Call) -> Result<(), Difference> {
        let given = call.given();
        let any = self.random.below(MOST_LENT + 1);
        let longest = call.longest();
        for lent in [0, longest - 1, longest, any] {
            self.hold(&call, &given, lent)?;
        }
        Ok(())
    }

    /// Makes one call and holds it against what it must do.
    fn hold(&mut self, call: &Call, given: &Given, lent: usize) -> Result<(), Difference> {
        let (due, made) = (due(given, lent), call.made(lent));
        if made == due {
            self.tally.count(call, &made.answer);
            return Ok(());
        }
        let place = format!("record {}, {lent} bytes lent", self.tally.records + 1);
        Err(format!("{place}\n{}\n{}", in_words(call), difference(&due, &made)))
    }
}

/// A call and its input, in words.
fn in_words(call: &Call) -> String {
    match call {
        Call::Write { booking } => format!("write the text of {booking:?}"),
        Call::Read { text } => format!("read the text \"{}\"", text.escape_ascii()),
    }
}

/// In what a call did something else than was due, in words.
fn difference(due: &Outcome, made: &Outcome) -> Difference {
    let answers = format!("answered {:?}, due {:?}", made.answer, due.answer);
    let mut pairs = (0..).zip(due.bytes.iter().zip(&made.bytes));
    match pairs.find(|(_, (due, made))| due != made) {
        None => answers,
        Some((at, (due, made))) => format!("{answers}\nbyte {at} of the buffer {made}, due {due}"),
    }
}
