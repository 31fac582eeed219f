//! Texts and records changed a little, so that most are bad and some are other good ones.

use model::craft::DAMAGES;
use model::random::Random;
use model::record::RECORD_BYTES;
use model::text::NEWLINE;

/// Bytes that stand in texts, blanks and newlines more often, and some that look alike.
const USUAL: &[u8] = b"0123456789 \n\n  putadneovPU\t\r+-_,.;\0";
/// Out of a hundred new bytes, how many are usual ones.
const MOSTLY: usize = 80;
/// What a number is made larger by, so that it looks the same where so many bits are kept.
const BEYOND: [u128; 4] = [1 << u8::BITS, 1 << u32::BITS, 1 << u64::BITS, 100];
/// Out of a hundred changed numbers, how many are larger; the others have zeros in front.
const LARGER: usize = 75;
/// The most zeros in front of a number.
const MOST_ZEROS: usize = 30;
/// What stands behind some texts.
const TAILS: [&[u8]; 7] = [b"\n", b" ", b"\0", b"x", b"\r\n", b"put 0 1\n", b"8 3\nput 0 1\n"];
/// Lengths of what is no record.
const ODD_LENGTHS: [usize; 6] = [0, 1, 8, 63, 65, 128];

/// A way to change a text.
type Change = fn(&mut Random, &[u8]) -> Vec<u8>;

/// The ways to change a text in one byte.
pub const ONE_BYTE: [Change; 3] = [changed, inserted, removed];
/// The ways to change a text in more.
pub const MORE: [Change; 6] = [swapped, repeated, cut, line_cut, another_number, with_tail];

/// A byte for a text.
fn byte(random: &mut Random) -> u8 {
    if random.chance(MOSTLY) { random.pick(USUAL) } else { random.byte() }
}

/// One byte changed.
fn changed(random: &mut Random, text: &[u8]) -> Vec<u8> {
    let mut text = text.to_vec();
    let place = random.below(text.len());
    text[place] = byte(random);
    text
}

/// One byte inserted, anywhere or at either end.
fn inserted(random: &mut Random, text: &[u8]) -> Vec<u8> {
    let mut text = text.to_vec();
    text.insert(random.below(text.len() + 1), byte(random));
    text
}

/// One byte removed.
fn removed(random: &mut Random, text: &[u8]) -> Vec<u8> {
    let mut text = text.to_vec();
    text.remove(random.below(text.len()));
    text
}

/// The lines of a text, each with its newline.
fn lines(text: &[u8]) -> Vec<&[u8]> {
    text.split_inclusive(|byte| *byte == NEWLINE).collect()
}

/// Two lines swapped.
fn swapped(random: &mut Random, text: &[u8]) -> Vec<u8> {
    let mut lines = lines(text);
    let (one, other) = (random.below(lines.len()), random.below(lines.len()));
    lines.swap(one, other);
    lines.concat()
}

/// One line repeated, so often that there may be too many.
fn repeated(random: &mut Random, text: &[u8]) -> Vec<u8> {
    let mut lines = lines(text);
    let place = random.below(lines.len());
    for _ in 0..=random.below(lines.len()) {
        lines.insert(place, lines[place]);
    }
    lines.concat()
}

/// Cut at any byte.
fn cut(random: &mut Random, text: &[u8]) -> Vec<u8> {
    text[..random.below(text.len())].to_vec()
}

/// One line cut out.
fn line_cut(random: &mut Random, text: &[u8]) -> Vec<u8> {
    let mut lines = lines(text);
    lines.remove(random.below(lines.len()));
    lines.concat()
}

/// One number made larger, mostly so that its low bits stay the same, or with zeros in front.
fn another_number(random: &mut Random, text: &[u8]) -> Vec<u8> {
    let text = String::from_utf8_lossy(text);
    let mut words: Vec<String> = text.split_inclusive([' ', '\n']).map(String::from).collect();
    let place = random.below(words.len());
    let (word, end) = words[place].split_at(words[place].len() - 1);
    if let Ok(number) = word.parse::<u128>() {
        let larger = number + random.pick(&BEYOND);
        let zeros = "0".repeat(1 + random.below(MOST_ZEROS));
        words[place] = if random.chance(LARGER) {
            format!("{larger}{end}")
        } else {
            format!("{zeros}{number}{end}")
        };
    }
    words.concat().into_bytes()
}

/// Something behind the end.
fn with_tail(random: &mut Random, text: &[u8]) -> Vec<u8> {
    [text, random.pick(&TAILS)].concat()
}

/// A record broken in one rule, or changed in one byte or bit.
pub fn record(random: &mut Random, valid: &[u8; RECORD_BYTES]) -> Vec<u8> {
    let mut record = *valid;
    random.pick(&DAMAGES)(random, &mut record);
    record.to_vec()
}

/// A record cut or made longer.
pub fn length(random: &mut Random, valid: &[u8; RECORD_BYTES]) -> Vec<u8> {
    let mut record = valid.to_vec();
    record.resize(random.pick(&ODD_LENGTHS), 0);
    record
}
