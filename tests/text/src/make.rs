//! Valid requests with numbers of every length.

use model::random::Random;
use model::record::{CELLS, CLASSES, MAX_OPS, Op, Request};

/// Out of a hundred numbers, how many stand at the edge of a length.
const EDGES: usize = 30;
/// The digits of the longest number, less one.
const MOST_TENS: usize = 9;

/// A valid request.
pub fn request(random: &mut Random) -> Request {
    let id = number(random).max(1);
    let class = random.below(CLASSES) as u8;
    let count = 1 + random.below(MAX_OPS);
    Request { id, class, ops: (0..count).map(|_| op(random)).collect() }
}

/// A valid operation.
fn op(random: &mut Random) -> Op {
    let cell = random.below(CELLS) as u8;
    let second = (usize::from(cell) + 1 + random.below(CELLS - 1)) % CELLS;
    let amount = number(random);
    match random.below(4) {
        0 => Op::Put { cell, amount },
        1 => Op::Add { cell, amount },
        2 => Op::Need { cell, amount },
        _ => Op::Move { cell, second: second as u8, amount },
    }
}

/// A number of any length, often the first or the last of its length, or the last of all.
fn number(random: &mut Random) -> u32 {
    let tens = 10_u32.pow(random.below(1 + MOST_TENS) as u32);
    if random.chance(EDGES) {
        random.pick(&[0, tens - 1, tens, u32::MAX])
    } else {
        random.number() >> random.below(u32::BITS as usize)
    }
}
