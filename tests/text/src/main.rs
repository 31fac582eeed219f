//! Holds the archive's texts against an independent writing and reading of them.
//!
//! `text [RECORDS] [SEED]`: so many records, with chance from this seed.

mod call;
mod make;
mod odd;
mod run;
mod tally;

use model::command::{Found, compared};
use run::Run;
use std::io;
use std::process::ExitCode;

/// Records where no number is given.
const RECORDS: u64 = 100_000;
/// The seed where none is given.
const SEED: u64 = 1;

/// Runs, and tells by the exit status how it went.
fn main() -> ExitCode {
    compared("text", [RECORDS, SEED], run)
}

/// Compares so many records, with chance from a seed; what should have occurred and never did.
fn run(records: u64, seed: u64) -> Found {
    let mut run = Run::new(seed);
    run.go(records)?;
    run.tally.write_to(&mut io::stdout().lock())?;
    Ok(run.tally.missing())
}
