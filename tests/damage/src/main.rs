//! Throws damaged sites at the library and holds every call against the rules of the build.
//!
//! `damage [STREAMS] [SEED]`: so many streams of traffic, the first from this seed.

use damage::run::Run;
use model::command::{Found, compared};
use model::stream::KINDS;
use std::io;
use std::process::ExitCode;

/// Streams where no number is given: two of each kind.
const STREAMS: u64 = 2 * KINDS.len() as u64;
/// The seed where none is given.
const SEED: u64 = 1;
/// Events in each stream.
const EVENTS: u64 = 1_000;
/// Events from one damaged site to the next.
const STRIDE: u64 = 40;

/// Runs, and tells by the exit status how it went.
fn main() -> ExitCode {
    compared("damage", [STREAMS, SEED], run)
}

/// Makes so many streams from a seed; what should have occurred and never did.
fn run(streams: u64, seed: u64) -> Found {
    let mut run = Run::new(seed, EVENTS, Some(STRIDE));
    run.go(streams, seed)?;
    run.tally.write_to(&mut io::stdout().lock())?;
    Ok(run.tally.missing())
}
