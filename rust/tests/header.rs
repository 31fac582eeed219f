//! The constants of the crate are those of the C header, which `tests/layout/constants.c` holds to the archive.

use shpendorak::Refusal;
use shpendorak::raw::*;
use std::collections::BTreeMap;

/// The header.
const HEADER: &str = include_str!("../../include/shpendorak.h");
/// What every name of the header begins with.
const PREFIX: &str = "SHPENDORAK_";

/// The constants of the header by name: `#define NAME NUMBER` and `NAME = NUMBER`.
fn header() -> BTreeMap<String, u64> {
    let lines = HEADER.lines().map(|line| line.trim_start().trim_start_matches("#define "));
    let named = lines.filter_map(|line| line.strip_prefix(PREFIX)).filter_map(|line| {
        let (name, rest) = line.split_once(' ')?;
        let number = rest.trim_start_matches("= ").split(|c: char| !c.is_ascii_digit()).next()?;
        Some((name.to_string(), number.parse().ok()?))
    });
    named.collect()
}

/// A size as the header has it.
fn size(size: usize) -> u64 {
    size as u64
}

#[test]
fn sizes_codes_and_kinds_of_answers_are_those_of_the_header() {
    let ours = [
        ("CLASSES", size(CLASSES)),
        ("CELLS", size(CELLS)),
        ("RUN_LENGTH", size(RUN_LENGTH)),
        ("SLOTS", size(SLOTS)),
        ("QUERIES", size(QUERIES)),
        ("CLASS_PLACES", size(CLASS_PLACES)),
        ("PLACES", size(PLACES)),
        ("KEPT", size(KEPT)),
        ("MOST_OPS", size(MOST_OPS)),
        ("RECORD_BYTES", size(RECORD_BYTES)),
        ("LONGEST_TEXT", size(LONGEST_TEXT)),
        ("NUMBERS", size(NUMBERS)),
        ("PUT", PUT.into()),
        ("ADD", ADD.into()),
        ("NEED", NEED.into()),
        ("MOVE", MOVE.into()),
        ("REFUSED", REFUSED),
        ("QUEUED", QUEUED),
        ("STEPPED", STEPPED),
        ("EXECUTED", EXECUTED),
        ("COMMITTED", COMMITTED),
        ("WAITING", WAITING),
        ("VALUE", VALUE),
        ("TO_DO", TO_DO),
        ("UNCONFIRMED", UNCONFIRMED),
        ("STARTED", STARTED),
        ("WRITTEN", WRITTEN),
        ("BEGUN", BEGUN),
        ("ENTRY", ENTRY),
    ];
    let mut header = header();
    for (name, number) in ours {
        assert_eq!(header.remove(name), Some(number), "{name}");
    }
    let left: Vec<&str> = header.keys().map(String::as_str).collect();
    let refusals = [
        "BAD_RECORD",
        "BAD_TEXT",
        "CONFIRMED_ALREADY",
        "EMPTY_MASK",
        "ID_KEPT",
        "ID_NOT_QUEUED",
        "ID_QUEUED",
        "NOTHING_TO_DO",
        "NO_SUCH_CELL",
        "NO_SUCH_CLASS",
        "NUMBERS_USED_UP",
        "QUERIES_OPEN",
        "QUERIES_USED_UP",
        "SHORT_BUFFER",
        "SITE_FULL",
        "UNSOUND",
        "WRONG_CELLS",
        "WRONG_NUMBER",
    ];
    assert_eq!(left, refusals);
}

#[test]
fn refusals_are_those_of_the_header() {
    let header = header();
    let shouted = |refusal: Refusal| {
        let mut name = String::new();
        for letter in format!("{refusal:?}").chars() {
            if letter.is_uppercase() && !name.is_empty() {
                name.push('_');
            }
            name.push(letter.to_ascii_uppercase());
        }
        name
    };
    for refusal in (0..=u8::MAX).filter_map(|number| Refusal::numbered(number.into())) {
        assert_eq!(header.get(&shouted(refusal)), Some(&refusal.number().into()), "{refusal:?}");
    }
}
