//! Holds another program against the model, line by line, over many streams.

use crate::event::{line, Run};
use crate::stream::{Kind, Stream, KINDS};
use crate::tally::Tally;
use std::io::{self, BufRead, BufReader, BufWriter, ErrorKind, Read, Write};
use std::path::Path;
use std::process::{Child, ChildStdin, Command, Stdio};
use std::thread::{self, JoinHandle};

/// The most bytes of a line that are read; every right line is shorter.
const LINE_LIMIT: u64 = 200;

/// What to compare.
#[derive(Clone, Debug)]
pub struct Plan {
    /// A program, or a program with arguments parted by blanks.
    pub program: String,
    /// How many streams, the kinds in turn.
    pub streams: u64,
    /// How many events in each stream.
    pub length: u64,
    /// The seed of the first stream; each next one is 1 more.
    pub seed: u64,
}

/// One stream, named so that it can be made again.
#[derive(Clone, Copy, Debug)]
struct Choice {
    /// The kind.
    kind: Kind,
    /// The name of the kind.
    name: &'static str,
    /// The seed.
    seed: u64,
    /// How many events.
    length: u64,
}

/// Where the program and the model part, and the two lines.
struct Difference {
    /// The place of the line, from 1.
    place: u64,
    /// The line of the model; empty if it has none there.
    model: Vec<u8>,
    /// The line of the program; empty if it has none there.
    program: Vec<u8>,
}

/// Compares over all streams of a plan and writes what came out; whether all is well.
pub fn compare(plan: &Plan, out: &mut impl Write) -> io::Result<bool> {
    let mut tally = Tally::default();
    for (turn, &(kind, name)) in (0..plan.streams).zip(KINDS.iter().cycle()) {
        let seed = plan.seed.wrapping_add(turn);
        let choice = Choice { kind, name, seed, length: plan.length };
        if let Some(difference) = compare_stream(&plan.program, choice, &mut tally)? {
            report(out, choice, &difference)?;
            return Ok(false);
        }
        tally.streams += 1;
    }
    tally.write_to(out)?;
    let missing = tally.missing();
    if !missing.is_empty() {
        writeln!(out, "never occurred: {}", missing.join(", "))?;
    }
    Ok(missing.is_empty())
}

/// Writes a difference: the stream, the place and both lines.
fn report(out: &mut impl Write, choice: Choice, found: &Difference) -> io::Result<()> {
    let Choice { name, seed, length, .. } = choice;
    writeln!(out, "difference: kind {name}, seed {seed}, length {length}, line {}", found.place)?;
    writeln!(out, "model:   {}", shown(&found.model))?;
    writeln!(out, "program: {}", shown(&found.program))
}

/// A line as it is shown to people, with its newline spelled out.
fn shown(line: &[u8]) -> String {
    if line.is_empty() {
        "(no line)".to_string()
    } else {
        line.escape_ascii().to_string()
    }
}

/// Runs the program over one stream; the first difference, if any.
fn compare_stream(
    program: &str,
    choice: Choice,
    tally: &mut Tally,
) -> io::Result<Option<Difference>> {
    let Choice { kind, seed, length, .. } = choice;
    let mut child = start(program)?;
    let input = child.stdin.take().ok_or(ErrorKind::BrokenPipe)?;
    let output = child.stdout.take().ok_or(ErrorKind::BrokenPipe)?;
    let feeder = feed(input, Stream::new(kind, seed, length));
    let found = first_difference(output, Stream::new(kind, seed, length), tally)?;
    if found.is_some() {
        child.kill()?;
    } else {
        fed_well(feeder)?;
    }
    child.wait()?;
    Ok(found)
}

/// Starts the program with its input and output in our hands.
fn start(program: &str) -> io::Result<Child> {
    let mut words = program.split_whitespace();
    let mut command = if Path::new(program).is_file() {
        Command::new(program)
    } else {
        let mut command = Command::new(words.next().ok_or(ErrorKind::NotFound)?);
        command.args(words);
        command
    };
    command.stdin(Stdio::piped()).stdout(Stdio::piped()).spawn()
}

/// Feeds a stream to the program from a thread, so that neither waits for the other.
fn feed(input: ChildStdin, stream: Stream) -> JoinHandle<io::Result<()>> {
    thread::spawn(move || {
        let mut input = BufWriter::new(input);
        stream.write_to(&mut input)?;
        input.flush()
    })
}

/// Waits for the feeding thread; a program may close its input early.
fn fed_well(feeder: JoinHandle<io::Result<()>>) -> io::Result<()> {
    match feeder.join() {
        Ok(Err(problem)) if problem.kind() != ErrorKind::BrokenPipe => Err(problem),
        Ok(_) => Ok(()),
        Err(_) => Err(io::Error::other("the feeding thread failed")),
    }
}

/// The first line where the output is not the model's, byte for byte.
fn first_difference(
    output: impl Read,
    stream: Stream,
    tally: &mut Tally,
) -> io::Result<Option<Difference>> {
    let mut output = BufReader::new(output);
    let mut run = Run::fresh();
    let mut program = Vec::new();
    for bytes in stream {
        let answer = run.take(&bytes);
        let model = line(run.place, &answer).into_bytes();
        next_line(&mut output, &mut program)?;
        if program != model {
            return Ok(Some(Difference { place: run.place, model, program }));
        }
        tally.count(&answer);
    }
    next_line(&mut output, &mut program)?;
    let more = !program.is_empty();
    Ok(more.then_some(Difference { place: run.place + 1, model: Vec::new(), program }))
}

/// Reads the next line with its newline; empty at the end of the output.
fn next_line(output: &mut impl BufRead, line: &mut Vec<u8>) -> io::Result<()> {
    line.clear();
    output.take(LINE_LIMIT).read_until(b'\n', line)?;
    Ok(())
}
