//! Holds the library to the model over streams with all calls: answers, sites and cells after each.
//!
//! `calls [STREAMS] [SEED]`: so many streams of traffic, the first from this seed.

use damage::run::Run;
use model::command::{Found, compared};
use model::stream::KINDS;
use std::io;
use std::process::ExitCode;

/// Streams where no number is given: six of each kind.
const STREAMS: u64 = 6 * KINDS.len() as u64;
/// The seed where none is given.
const SEED: u64 = 1_001;
/// Events in each stream.
const EVENTS: u64 = 1_000;

/// Runs, and tells by the exit status how it went.
fn main() -> ExitCode {
    compared("calls", [STREAMS, SEED], run)
}

/// Makes so many streams from a seed; which answers should have occurred and never did.
fn run(streams: u64, seed: u64) -> Found {
    let mut run = Run::new(seed, EVENTS, None);
    run.go(streams, seed)?;
    run.tally.write_traffic_to(&mut io::stdout().lock())?;
    Ok(run.tally.missing_answers())
}
