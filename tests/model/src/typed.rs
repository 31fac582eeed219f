//! Lines typed by people, turned into events.
//!
//! `offer ID CLASS OP...` (an operation is `put CELL AMOUNT`, `add CELL AMOUNT`,
//! `need CELL AMOUNT` or `move CELL SECOND AMOUNT`), `confirm ID NUMBER`, `work CLASS`,
//! `read CLASS CELL`. What fits the fields is taken, also where the site would refuse it.

use crate::event::{Event, CONFIRM, OFFER, READ, WORK};
use crate::record::{write, Op, Request, CLASS_AT, MAX_OPS};
use std::str::FromStr;

/// What starts a line that is skipped.
const REMARK: char = '#';

/// The words of a line that are not used up yet.
type Words<'a> = std::str::SplitWhitespace<'a>;

/// The events of a text, or each bad line by its number and what is wrong with it.
pub fn events(text: &str) -> Result<Vec<Event>, Vec<(usize, String)>> {
    let (mut events, mut bad) = (Vec::new(), Vec::new());
    for (number, line) in (1..).zip(text.lines()) {
        match event(line) {
            Ok(found) => events.extend(found),
            Err(problem) => bad.push((number, problem)),
        }
    }
    if bad.is_empty() {
        Ok(events)
    } else {
        Err(bad)
    }
}

/// The event of a line; none if the line is blank or a remark.
pub fn event(line: &str) -> Result<Option<Event>, String> {
    let mut words = line.split_whitespace();
    let event = match words.next() {
        None => return Ok(None),
        Some(word) if word.starts_with(REMARK) => return Ok(None),
        Some("offer") => offer(&mut words)?,
        Some("confirm") => confirm(&mut words)?,
        Some("work") => Event { class: field(&mut words, "class")?, ..Event::blank(WORK) },
        Some("read") => {
            let class = field(&mut words, "class")?;
            Event { class, cell: field(&mut words, "cell")?, ..Event::blank(READ) }
        }
        Some(word) => return Err(format!("unknown word {word}")),
    };
    match words.next() {
        None => Ok(Some(event)),
        Some(word) => Err(format!("{word} is too much")),
    }
}

/// The rest of an offer line.
fn offer(words: &mut Words) -> Result<Event, String> {
    let (id, class) = (field(words, "id")?, field(words, "class")?);
    let mut ops = Vec::new();
    while let Some(name) = words.next() {
        ops.push(op(name, words)?);
    }
    if ops.len() > MAX_OPS {
        return Err(format!("a record holds {MAX_OPS} operations, not {}", ops.len()));
    }
    Ok(Event { record: write(&Request { id, class, ops }), ..Event::blank(OFFER) })
}

/// One operation of an offer line.
fn op(name: &str, words: &mut Words) -> Result<Op, String> {
    if !["put", "add", "need", "move"].contains(&name) {
        return Err(format!("unknown operation {name}"));
    }
    let cell = field(words, "cell")?;
    if name == "move" {
        let second = field(words, "second cell")?;
        return Ok(Op::Move { cell, second, amount: field(words, "amount")? });
    }
    let amount = field(words, "amount")?;
    Ok(match name {
        "put" => Op::Put { cell, amount },
        "add" => Op::Add { cell, amount },
        _ => Op::Need { cell, amount },
    })
}

/// The rest of a confirm line.
fn confirm(words: &mut Words) -> Result<Event, String> {
    let id: u32 = field(words, "id")?;
    let mut event = Event { number: field(words, "number")?, ..Event::blank(CONFIRM) };
    event.record[..CLASS_AT].copy_from_slice(&id.to_le_bytes());
    Ok(event)
}

/// The next word as a number that its field can hold.
fn field<T: FromStr>(words: &mut Words, name: &str) -> Result<T, String> {
    let word = words.next().ok_or_else(|| format!("the {name} is missing"))?;
    let plain = word.bytes().all(|byte| byte.is_ascii_digit());
    let value = word.parse().ok().filter(|_| plain);
    value.ok_or_else(|| format!("{word} is no {name} that its field can hold"))
}
