//! The yardstick: the same calls through the archive and through plain Rust with the same check, at four loads.
//!
//! `yardstick [ROUNDS [CALLS [SEED [LIMIT]]]]`: in each round all calls are made on both sides, in slices of a hundred, the archive and plain Rust in
//! turn. Of each slice the best time over all rounds counts, so that other work on the machine counts little. With a limit the program fails where a
//! ratio is above it.

use std::env;
use std::process::ExitCode;
use std::time::{Duration, Instant};
use yardstick::archive::Archive;
use yardstick::call::{Answered, Call, Takes};
use yardstick::load::{LOADS, Load, Script, kinds};
use yardstick::plain::Plain;

/// How many rounds are run if none are given.
const ROUNDS: u64 = 5;
/// How many calls are made at each load if none are given.
const CALLS: u64 = 100_000;
/// The seed of the calls if none is given.
const SEED: u64 = 1;
/// How many calls are timed together.
const SLICE: usize = 100;

/// One side of a round: the archive, or plain Rust.
struct Side<T> {
    /// The site that takes the calls.
    site: T,
    /// Every answer so far at the load.
    answers: Vec<Answered>,
}

impl<T: Takes> Side<T> {
    /// A side whose site is at the load of a script.
    fn at_load(script: &Script) -> Side<T> {
        let mut site = T::fresh();
        for call in &script.filling {
            let _ = site.take(call);
        }
        Side { site, answers: Vec::with_capacity(script.calls.len()) }
    }

    /// Makes a slice of calls; their time.
    fn time(&mut self, calls: &[Call]) -> Duration {
        let start = Instant::now();
        for call in calls {
            self.answers.push(self.site.take(call));
        }
        start.elapsed()
    }
}

/// The best times of a slice: of the archive and of plain Rust.
#[derive(Clone, Copy)]
struct Best {
    /// Of the archive.
    archive: Duration,
    /// Of plain Rust.
    plain: Duration,
}

/// Where two sides differ after a round, if they do.
fn difference(archive: &mut Side<Archive>, plain: &mut Side<Plain>) -> Option<String> {
    let mut answers = archive.answers.iter().zip(&plain.answers).enumerate();
    if let Some((at, (theirs, ours))) = answers.find(|(_, (theirs, ours))| theirs != ours) {
        return Some(format!("call {at} answers {theirs:?}, plain Rust {ours:?}"));
    }
    let differ = archive.site.held() != plain.site.held();
    differ.then(|| "the sites or cells at the end differ".to_string())
}

/// Makes all calls of a script on both sides, slice by slice, and keeps the best time of each.
fn round(script: &Script, best: &mut [Best]) -> Result<(), String> {
    let (mut archive, mut plain) = (Side::at_load(script), Side::at_load(script));
    for (calls, best) in script.calls.chunks(SLICE).zip(best) {
        best.archive = best.archive.min(archive.time(calls));
        best.plain = best.plain.min(plain.time(calls));
    }
    difference(&mut archive, &mut plain).map_or(Ok(()), Err)
}

/// Makes all rounds of a script: the times of the archive and of plain Rust.
fn best_times(script: &Script, rounds: u64) -> Result<(Duration, Duration), String> {
    let slices = script.calls.len().div_ceil(SLICE);
    let mut best = vec![Best { archive: Duration::MAX, plain: Duration::MAX }; slices];
    for _ in 0..rounds {
        round(script, &mut best)?;
    }
    Ok((best.iter().map(|best| best.archive).sum(), best.iter().map(|best| best.plain).sum()))
}

/// Measures one load and prints its row; the ratio.
fn measure(load: Load, rounds: u64, calls: u64, seed: u64) -> Result<f64, String> {
    let script = Script::new(load, seed, calls as usize);
    let best = best_times(&script, rounds);
    let (archive, plain) = best.map_err(|found| format!("{}: {found}", load.name))?;
    let ratio = archive.as_secs_f64() / plain.as_secs_f64();
    let rate = |time: Duration| calls as f64 / time.as_secs_f64();
    let queued = format!("{}-{}", script.fewest, script.most);
    println!(
        "{:<10}{queued:>9}{:>14.3} s{:>12.0}{:>14.3} s{:>12.0}{ratio:>8.2}",
        load.name,
        archive.as_secs_f64(),
        rate(archive),
        plain.as_secs_f64(),
        rate(plain)
    );
    let kinds = kinds(&script.calls).map(|(name, count)| format!("{count} {name}"));
    println!("{:<10}{}", "", kinds.join(", "));
    Ok(ratio)
}

/// A number given on the command line, or the usual one.
fn number_given(place: usize, usual: u64) -> Result<u64, String> {
    match env::args().nth(place) {
        None => Ok(usual),
        Some(word) => word.parse().map_err(|_| format!("{word} is no number")),
    }
}

/// The limit given on the command line; no ratio is above the usual one.
fn limit_given(place: usize) -> Result<f64, String> {
    match env::args().nth(place) {
        None => Ok(f64::INFINITY),
        Some(word) => word.parse().map_err(|_| format!("{word} is no limit")),
    }
}

/// Measures all loads and prints the table; whether every ratio is within the limit.
fn measure_all() -> Result<bool, String> {
    let (rounds, calls) = (number_given(1, ROUNDS)?, number_given(2, CALLS)?);
    let (seed, limit) = (number_given(3, SEED)?, limit_given(4)?);
    println!("{calls} calls at each load, the best of {rounds} rounds in each slice of {SLICE}");
    println!(
        "{:<10}{:>9}{:>16}{:>12}{:>16}{:>12}{:>8}",
        "load", "queued", "archive", "calls/s", "plain Rust", "calls/s", "ratio"
    );
    let mut within = true;
    for load in LOADS {
        within &= measure(load, rounds, calls, seed)? <= limit;
    }
    println!("all answers, sites and cells agree");
    Ok(within)
}

/// Fails where the sides differ, a word is wrong or a ratio is above the limit.
fn main() -> ExitCode {
    match measure_all() {
        Ok(true) => ExitCode::SUCCESS,
        Ok(false) => {
            println!("a ratio is above the limit");
            ExitCode::FAILURE
        }
        Err(problem) => {
            println!("{problem}");
            ExitCode::FAILURE
        }
    }
}
