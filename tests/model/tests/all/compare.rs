//! The compare command, with the model's own run and with programs that go wrong.

use crate::help::program;
use std::fs;
use std::path::Path;
use std::process::Output;

/// The model's program.
const MODEL: &str = env!("CARGO_BIN_EXE_model");

/// Compares the model's run, passed through a shell filter, with the model.
fn compare_filtered(name: &str, filter: &str) -> Output {
    let script = Path::new(env!("CARGO_TARGET_TMPDIR")).join(name);
    fs::write(&script, format!("'{MODEL}' run | {filter}\n")).unwrap();
    let command = format!("sh {}", script.display());
    program(&["compare", &command, "22", "300", "40"], &[])
}

/// The text that a program printed.
fn text(output: &Output) -> String {
    String::from_utf8(output.stdout.clone()).unwrap()
}

#[test]
fn the_model_agrees_with_itself_and_every_answer_occurs() {
    let ran = program(&["compare", &format!("{MODEL} run")], &[]);
    let text = text(&ran);
    assert!(ran.status.success(), "{text}");
    assert!(text.starts_with("440000 events in 220 streams compared\n"), "{text}");
    for row in text.lines().skip(1) {
        let count: u64 = row.split(' ').next_back().unwrap().parse().unwrap();
        assert!(count > 0, "{row}");
    }
    assert_eq!(text.lines().count(), 1 + 7 + 11 + 8 + 3 + 3);
}

#[test]
fn one_mixed_stream_covers_all_answers_alone() {
    let ran = program(&["compare", &format!("{MODEL} run"), "1", "100000", "77"], &[]);
    assert!(ran.status.success(), "{}", text(&ran));
}

#[test]
fn answers_that_never_occur_are_a_failure() {
    let ran = program(&["compare", &format!("{MODEL} run"), "1", "3"], &[]);
    assert_eq!(ran.status.code(), Some(1));
    assert!(text(&ran).contains("never occurred: "), "{}", text(&ran));
}

#[test]
fn an_altered_line_is_found() {
    let ran = compare_filtered("altered.sh", "sed '57s/ .*/ altered/'");
    assert_eq!(ran.status.code(), Some(1));
    let text = text(&ran);
    let lines: Vec<&str> = text.lines().collect();
    assert_eq!(lines[0], "difference: kind mixed, seed 40, length 300, line 57");
    assert!(lines[1].starts_with("model:   57 "), "{text}");
    assert_eq!(lines[2], "program: 57 altered\\n");
}

#[test]
fn a_missing_line_is_found() {
    let ran = compare_filtered("missing.sh", "sed '$d'");
    assert_eq!(ran.status.code(), Some(1));
    assert!(text(&ran).contains("line 300\n"), "{}", text(&ran));
    assert!(text(&ran).ends_with("program: (no line)\n"), "{}", text(&ran));
}

#[test]
fn a_line_too_many_is_found() {
    let ran = compare_filtered("more.sh", "sed '$a 301 value 0'");
    assert_eq!(ran.status.code(), Some(1));
    assert!(
        text(&ran).ends_with("model:   (no line)\nprogram: 301 value 0\\n\n"),
        "{}",
        text(&ran)
    );
}

#[test]
fn a_missing_newline_at_the_end_is_found() {
    let ran = compare_filtered("newline.sh", "awk '{printf \"%s%s\", sep, $0; sep = \"\\n\"}'");
    assert_eq!(ran.status.code(), Some(1));
    assert!(text(&ran).contains("line 300\n"), "{}", text(&ran));
}

#[test]
fn a_program_that_prints_without_end_is_found() {
    let ran = program(&["compare", &format!("{MODEL} gen random 1 100000000"), "1", "5000"], &[]);
    assert_eq!(ran.status.code(), Some(1));
    assert!(text(&ran).contains("line 1\n"), "{}", text(&ran));
}

#[test]
fn a_program_that_does_not_start_is_an_error() {
    let ran = program(&["compare", "no-such-program-anywhere"], &[]);
    assert_eq!(ran.status.code(), Some(1));
    assert!(!ran.stderr.is_empty());
}

#[test]
fn a_bad_command_line_is_an_error() {
    let lines: [&[&str]; 4] =
        [&[], &["walk"], &["run", "now"], &["compare", "program", "1", "1", "1", "1"]];
    for words in lines {
        let ran = program(words, &[]);
        assert_eq!(ran.status.code(), Some(1), "{words:?}");
        assert!(String::from_utf8_lossy(&ran.stderr).contains("usage"), "{words:?}");
    }
}
