//! What the comparisons have in common as programs: two numbers of the command line, and an exit status.

use std::env;
use std::error::Error;
use std::process::ExitCode;

/// What a comparison found that should have occurred and never did, or the problem that ended it.
pub type Found = Result<Vec<String>, Box<dyn Error>>;

/// Makes a comparison with a size and a seed, the usual ones where none are given, and tells how it went.
pub fn compared(name: &str, usual: [u64; 2], run: impl Fn(u64, u64) -> Found) -> ExitCode {
    match numbers(usual).and_then(|[size, seed]| run(size, seed)) {
        Ok(missing) => {
            for what in &missing {
                println!("never occurred: {what}");
            }
            if missing.is_empty() {
                ExitCode::SUCCESS
            } else {
                ExitCode::FAILURE
            }
        }
        Err(problem) => {
            eprintln!("{name}: {problem}");
            ExitCode::FAILURE
        }
    }
}

/// The numbers of the command line, with the usual ones for those that are not given.
fn numbers(usual: [u64; 2]) -> Result<[u64; 2], Box<dyn Error>> {
    let given = env::args().skip(1).map(|word| word.parse()).collect::<Result<Vec<u64>, _>>()?;
    Ok([0, 1].map(|at| given.get(at).copied().unwrap_or(usual[at])))
}
