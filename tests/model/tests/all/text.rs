//! The text form, rule by rule.

use crate::help::{add, need, put, request, shift};
use model::record::{write, Op, RECORD_BYTES};
use model::text::{hand_over, read_text, write_text, Refusal, LONGEST_TEXT, NEWLINE};

/// A text with all four names.
const FOUR: &str = "7 3\nput 0 100\nadd 63 0\nneed 9 10\nmove 1 2 4294967295\n";
/// Seven operations.
const SEVEN: &str = "put 0 1\nadd 0 1\nneed 0 1\nput 1 1\nadd 1 1\nneed 1 1\nmove 0 1 1\n";

/// The record of a request with these parts.
fn record(id: u32, class: u8, ops: &[Op]) -> [u8; RECORD_BYTES] {
    write(&request(id, class, ops))
}

/// The record of `FOUR`.
fn four() -> [u8; RECORD_BYTES] {
    record(7, 3, &[put(0, 100), add(63, 0), need(9, 10), shift(1, 2, u32::MAX)])
}

/// Each text must be bad at the line beside it.
fn bad(texts: &[(&str, usize)]) {
    for (text, line) in texts {
        let refusal = Refusal::BadText { line: *line };
        assert_eq!(read_text(text.as_bytes()), Err(refusal), "{text:?}");
    }
}

#[test]
fn the_example_is_written_and_read() {
    let example = record(7, 3, &[put(0, 100), shift(1, 2, 5)]);
    let text = b"7 3\nput 0 100\nmove 1 2 5\n";
    assert_eq!(write_text(&example), Ok(text.to_vec()));
    assert_eq!(read_text(text), Ok(example));
    assert_eq!(write_text(&four()), Ok(FOUR.as_bytes().to_vec()));
    assert_eq!(read_text(FOUR.as_bytes()), Ok(four()));
}

#[test]
fn numbers_at_their_ends_are_written_and_read() {
    let least = record(1, 0, &[put(0, 0)]);
    assert_eq!(write_text(&least), Ok(b"1 0\nput 0 0\n".to_vec()));
    assert_eq!(read_text(b"1 0\nput 0 0\n"), Ok(least));
    let most = record(u32::MAX, 15, &[shift(63, 62, u32::MAX); 7]);
    let text = format!("4294967295 15\n{}", "move 63 62 4294967295\n".repeat(7));
    assert_eq!(text.len(), LONGEST_TEXT);
    assert_eq!(write_text(&most), Ok(text.clone().into_bytes()));
    assert_eq!(read_text(text.as_bytes()), Ok(most));
    assert_eq!(LONGEST_TEXT, 168);
}

#[test]
fn a_record_that_breaks_a_rule_has_no_text() {
    let valid = four();
    for length in (0..RECORD_BYTES).chain([RECORD_BYTES + 1, 2 * RECORD_BYTES]) {
        let other: Vec<u8> = valid.iter().copied().cycle().take(length).collect();
        assert_eq!(write_text(&other), Err(Refusal::BadRecord), "{length} bytes");
    }
    let broken = [
        record(0, 3, &[put(0, 1)]),
        record(7, 16, &[put(0, 1)]),
        record(7, 3, &[]),
        record(7, 3, &[put(64, 1)]),
        record(7, 3, &[shift(5, 5, 1)]),
    ];
    for record in broken {
        assert_eq!(write_text(&record), Err(Refusal::BadRecord), "{record:?}");
    }
}

#[test]
fn missing_lines_are_bad_at_their_places() {
    bad(&[("", 1), ("7 3\n", 2), ("7 3", 1), ("7 3\nput 0 1", 2), ("7 3\nput 0 1\nadd 0 1", 3)]);
    for end in 1..FOUR.len() {
        let cut = &FOUR[..end];
        let whole = cut.ends_with('\n');
        let lines = cut.lines().count();
        match read_text(cut.as_bytes()) {
            Ok(record) => assert!(whole && lines > 1 && record[5] == lines as u8 - 1, "{cut:?}"),
            Err(refusal) => {
                let line = if whole { lines + 1 } else { lines };
                assert_eq!(refusal, Refusal::BadText { line }, "{cut:?}");
                assert!(!whole || lines == 1, "{cut:?}");
            }
        }
    }
}

#[test]
fn what_follows_the_end_is_bad_at_its_line() {
    let full = format!("7 3\n{SEVEN}");
    assert!(read_text(full.as_bytes()).is_ok());
    for more in ["put 0 1\n", "put 0 1", "x", "\n", " ", "\0", "8 3\nput 0 1\n"] {
        bad(&[(&format!("{full}{more}"), 9)]);
    }
    bad(&[("7 3\nput 0 1\n\n", 3), ("7 3\nput 0 1\n8 3\nput 0 1\n", 3), ("7 3\nput 0 1\n ", 3)]);
    bad(&[(&format!("{FOUR}\0"), 6), (&format!("{FOUR}{SEVEN}"), 9)]);
}

#[test]
fn numbers_have_no_leading_zeros_and_fit() {
    bad(&[("07 3\nput 0 1\n", 1), ("7 03\nput 0 1\n", 1), ("7 00\nput 0 1\n", 1)]);
    bad(&[("7 3\nput 00 1\n", 2), ("7 3\nput 0 00\n", 2), ("7 3\nmove 1 02 5\n", 2)]);
    bad(&[("0 3\nput 0 1\n", 1), ("4294967296 3\nput 0 1\n", 1), ("7 16\nput 0 1\n", 1)]);
    bad(&[
        ("7 256\nput 0 1\n", 1),
        ("7 259\nput 0 1\n", 1),
        ("7 18446744073709551619\nput 0 1\n", 1),
    ]);
    bad(&[("7 3\nput 64 1\n", 2), ("7 3\nmove 1 64 1\n", 2), ("7 3\nput 256 1\n", 2)]);
    bad(&[("7 3\nput 0 4294967296\n", 2), ("7 3\nput 0 18446744073709551617\n", 2)]);
    bad(&[("+7 3\nput 0 1\n", 1), ("7 3\nput 0 -1\n", 2), ("7 3\nput 0 1.0\n", 2)]);
    bad(&[("7 3\nput 0 0x1\n", 2), ("7 3\nput 0 ١\n", 2), ("7 3\nput 0 1e0\n", 2)]);
}

#[test]
fn single_blanks_and_newlines_split() {
    bad(&[("7  3\nput 0 1\n", 1), ("7\t3\nput 0 1\n", 1), (" 7 3\nput 0 1\n", 1)]);
    bad(&[("7 3 \nput 0 1\n", 1), ("7 3\r\nput 0 1\r\n", 1), ("\n7 3\nput 0 1\n", 1)]);
    bad(&[("7 3\nput  0 1\n", 2), ("7 3\nput 0  1\n", 2), ("7 3\n put 0 1\n", 2)]);
    bad(&[("7 3\nput 0 1 \n", 2), ("7 3\nput\t0 1\n", 2), ("7 3\n\nput 0 1\n", 2)]);
    bad(&[("7 3 put 0 1\n", 1), ("7\n3\nput 0 1\n", 1), ("7 3\nput 0 1\r\n", 2)]);
    bad(&[("7 3\nput 0 1 add 0 1\n", 2), ("7 3\rput 0 1\r", 1), ("7\u{a0}3\nput 0 1\n", 1)]);
}

#[test]
fn operations_have_their_names_and_numbers() {
    bad(&[("7 3\nPut 0 1\n", 2), ("7 3\nputs 0 1\n", 2), ("7 3\npu 0 1\n", 2)]);
    bad(&[("7 3\n1 0 1\n", 2), ("7 3\nput0 1\n", 2), ("7 3\nput 0\n", 2), ("7 3\nput\n", 2)]);
    bad(&[("7 3\nput 0 1 2\n", 2), ("7 3\nput 0 0 1\n", 2), ("7 3\nmove 1 2\n", 2)]);
    bad(&[("7 3\nmove 1 1 5\n", 2), ("7 3\nmove 0 0 0\n", 2), ("7 3\nmove 1 2 3 4\n", 2)]);
    bad(&[
        ("7 3\nput 0 1\nmove 1 1 5\nput 0 x\n", 3),
        ("7 3 1\nput 0 1\n", 1),
        ("7\nput 0 1\n", 1),
    ]);
}

#[test]
fn a_changed_byte_is_bad_at_its_line_or_gives_another_text() {
    for place in 0..FOUR.len() {
        for byte in (0..=u8::MAX).filter(|byte| *byte != NEWLINE) {
            let mut text = FOUR.as_bytes().to_vec();
            text[place] = byte;
            let line = FOUR[..place].matches('\n').count() + 1;
            match read_text(&text) {
                Ok(record) => assert_eq!(write_text(&record), Ok(text)),
                Err(refusal) => assert_eq!(refusal, Refusal::BadText { line }, "{text:?}"),
            }
        }
    }
}

#[test]
fn a_buffer_takes_what_fits_and_nothing_past_it() {
    for length in 0..10 {
        let mut buffer = vec![9; length];
        let handed = hand_over(&[1, 2, 3, 4], &mut buffer);
        let mut left = vec![9; length];
        if length < 4 {
            assert_eq!(handed, Err(Refusal::ShortBuffer));
        } else {
            assert_eq!(handed, Ok(4));
            left[..4].copy_from_slice(&[1, 2, 3, 4]);
        }
        assert_eq!(buffer, left);
    }
}

#[test]
fn refusals_have_their_numbers() {
    let all = [Refusal::BadRecord, Refusal::BadText { line: 1 }, Refusal::ShortBuffer];
    assert_eq!(all.map(Refusal::number), [3, 15, 16]);
}
