//! Texts by the wrapper: written, read, and refused under their numbers and in words.

use shpendorak::{LONGEST_TEXT, RECORD_BYTES, TextRefusal, read_text, write_text};

/// What a buffer holds before a call.
const FILL: u8 = 0xA5;
/// The longest first line, and the longest line of an operation.
const LONGEST_LINES: (&str, &str) = ("4294967295 15\n", "move 63 62 4294967295\n");

/// The record of a text.
fn record(text: &str) -> [u8; RECORD_BYTES] {
    let mut booking = [FILL; RECORD_BYTES];
    assert_eq!(read_text(text.as_bytes(), &mut booking), Ok(RECORD_BYTES), "{text:?}");
    booking
}

#[test]
fn a_text_is_read_and_written_back() {
    let longest = LONGEST_LINES.0.to_string() + &LONGEST_LINES.1.repeat(7);
    assert_eq!(longest.len(), LONGEST_TEXT);
    for text in ["1 0\nput 0 0\n", "7 3\nput 0 100\nmove 1 2 5\n", longest.as_str()] {
        let mut again = [FILL; LONGEST_TEXT + 1];
        assert_eq!(write_text(&record(text), &mut again), Ok(text.len()));
        assert_eq!(&again[..text.len()], text.as_bytes());
        assert!(again[text.len()..].iter().all(|byte| *byte == FILL));
    }
}

#[test]
fn each_refusal_comes_and_leaves_the_buffer() {
    let mut buffer = [FILL; LONGEST_TEXT];
    let booking = record("7 3\nput 0 100\n");
    assert_eq!(write_text(&booking[1..], &mut buffer), Err(TextRefusal::BadRecord));
    assert_eq!(write_text(&booking, &mut buffer[..13]), Err(TextRefusal::ShortBuffer));
    assert_eq!(write_text(&booking, &mut []), Err(TextRefusal::ShortBuffer));
    for (text, line) in [("", 1), ("7 3\n", 2), ("7 3\nput 0 1\nput 0 01\n", 3)] {
        let refused = read_text(text.as_bytes(), &mut buffer[..1]);
        assert_eq!(refused, Err(TextRefusal::BadText { line }), "{text:?}");
    }
    let short = read_text(b"7 3\nput 0 100\n", &mut buffer[..RECORD_BYTES - 1]);
    assert_eq!(short, Err(TextRefusal::ShortBuffer));
    assert_eq!(buffer, [FILL; LONGEST_TEXT]);
}

#[test]
fn refusals_say_their_numbers_and_what_they_mean() {
    let all = [TextRefusal::BadRecord, TextRefusal::BadText { line: 9 }, TextRefusal::ShortBuffer];
    assert_eq!(
        all.map(|refusal| refusal.to_string()),
        [
            "refused 3: the record is not 64 bytes or breaks a rule",
            "refused 15: line 9 of the text is bad",
            "refused 16: the buffer is shorter than the result",
        ]
    );
}
