//! The command line of the model.

use model::compare::{compare, Plan};
use model::event::run_from;
use model::stream::{kind_named, Stream, KINDS};
use model::typed;
use std::env;
use std::error::Error;
use std::io::{self, BufReader, BufWriter, Read, Write};
use std::process::ExitCode;

/// What is told to who gives a wrong command line.
const USAGE: &str = "\
usage: model run [checked]                               events in, lines out
       model gen KIND SEED LENGTH                        events out
       model events                                      typed lines in, events out
       model compare PROGRAM [STREAMS] [LENGTH] [SEED]   hold a program against the model";

/// Streams compared where no number is given, the kinds in turn.
const STREAMS: u64 = 220;
/// Events in each stream where no length is given.
const LENGTH: u64 = 2_000;
/// The seed of the first stream where none is given.
const SEED: u64 = 1;

/// Whether all went well, or a problem to report.
type Outcome = Result<bool, Box<dyn Error>>;

/// Does what the command line says and tells by the exit status how it went.
fn main() -> ExitCode {
    let args: Vec<String> = env::args().skip(1).collect();
    let words: Vec<&str> = args.iter().map(String::as_str).collect();
    match obey(&words) {
        Ok(true) => ExitCode::SUCCESS,
        Ok(false) => ExitCode::FAILURE,
        Err(problem) => {
            eprintln!("model: {problem}");
            ExitCode::FAILURE
        }
    }
}

/// Picks the command that the words name.
fn obey(words: &[&str]) -> Outcome {
    let mut out = BufWriter::new(io::stdout().lock());
    let well = match *words {
        ["run"] => {
            run_from(BufReader::new(io::stdin().lock()), &mut out, false)?;
            true
        }
        ["run", "checked"] => {
            run_from(BufReader::new(io::stdin().lock()), &mut out, true)?;
            true
        }
        ["gen", kind, seed, length] => generate(kind, seed, length, &mut out)?,
        ["events"] => type_events(&mut out)?,
        ["compare", program, ref numbers @ ..] => hold_against(program, numbers, &mut out)?,
        _ => return Err(USAGE.into()),
    };
    out.flush()?;
    Ok(well)
}

/// Writes the events of a stream.
fn generate(kind: &str, seed: &str, length: &str, out: &mut impl Write) -> Outcome {
    let Some(kind) = kind_named(kind) else {
        let names = KINDS.map(|(_, name)| name).join(", ");
        return Err(format!("unknown kind {kind}; the kinds are {names}").into());
    };
    Stream::new(kind, number(seed)?, number(length)?).write_to(out)?;
    Ok(true)
}

/// Turns typed lines into events; nothing is written if a line is bad.
fn type_events(out: &mut impl Write) -> Outcome {
    let mut text = Vec::new();
    io::stdin().lock().read_to_end(&mut text)?;
    match typed::events(&String::from_utf8_lossy(&text)) {
        Ok(events) => {
            events.iter().try_for_each(|event| out.write_all(&event.encode()))?;
            Ok(true)
        }
        Err(bad) => {
            bad.iter().for_each(|(number, problem)| eprintln!("line {number}: {problem}"));
            Ok(false)
        }
    }
}

/// Holds a program against the model.
fn hold_against(program: &str, numbers: &[&str], out: &mut impl Write) -> Outcome {
    let mut plan =
        Plan { program: program.to_string(), streams: STREAMS, length: LENGTH, seed: SEED };
    let fields = [&mut plan.streams, &mut plan.length, &mut plan.seed];
    if numbers.len() > fields.len() {
        return Err(USAGE.into());
    }
    for (field, word) in fields.into_iter().zip(numbers) {
        *field = number(word)?;
    }
    Ok(compare(&plan, out)?)
}

/// A number of the command line.
fn number(word: &str) -> Result<u64, Box<dyn Error>> {
    word.parse().map_err(|_| format!("{word} is no number").into())
}
