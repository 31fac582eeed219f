//! Made-up requests, and valid records broken in one rule each.

use crate::random::Random;
use crate::record::*;

/// Cells that most operations use, so that requests meet.
const BUSY_CELLS: [u8; 4] = [0, 1, 2, 63];
/// Amounts at the edges.
const EDGE_AMOUNTS: [u32; 5] = [0, 1, u32::MAX, u32::MAX - 1, 1 << 31];
/// Out of a hundred amounts that are not usual, how many are at the edges.
const EDGES_OF_ODD: usize = 70;
/// One more than the largest usual amount of a put.
const PUT_END: usize = 300;
/// One more than the largest usual amount of an add.
const ADD_END: usize = 100;
/// One more than the largest usual amount of a need or a move.
const TAKE_END: usize = 40;
/// Out of a hundred puts, how many have an amount that is not usual.
const ODD_PUTS: usize = 25;
/// Out of a hundred adds, how many have an amount that is not usual.
const ODD_ADDS: usize = 15;
/// Out of a hundred needs and moves, how many have an amount that is not usual.
const ODD_TAKES: usize = 8;
/// Out of a hundred cells, how many are among the busy ones at once.
const BUSY: usize = 80;
/// Classes that do not exist, and the last one that does.
pub const ODD_CLASSES: [u8; 8] = [15, 16, 17, 31, 64, 128, 240, 255];
/// Cells that do not exist, and the last one that does.
pub const ODD_CELLS: [u8; 7] = [63, 64, 65, 127, 128, 192, 255];
/// Codes that name no operation.
const ODD_CODES: [u8; 5] = [0, 5, 6, 128, 255];
/// Numbers of operations that no request may have.
const ODD_COUNTS: [u8; 4] = [0, 8, 9, 255];

/// A cell, mostly one of the busy ones.
pub fn cell(random: &mut Random) -> u8 {
    if random.chance(BUSY) {
        random.pick(&BUSY_CELLS)
    } else {
        random.below(CELLS) as u8
    }
}

/// An amount below an end, or so many times in a hundred one at an edge or any at all.
fn amount(random: &mut Random, end: usize, percent: usize) -> u32 {
    if !random.chance(percent) {
        random.below(end) as u32
    } else if random.chance(EDGES_OF_ODD) {
        random.pick(&EDGE_AMOUNTS)
    } else {
        random.number()
    }
}

/// A valid operation.
fn op(random: &mut Random) -> Op {
    let cell = cell(random);
    match random.below(4) {
        0 => Op::Put { cell, amount: amount(random, PUT_END, ODD_PUTS) },
        1 => Op::Add { cell, amount: amount(random, ADD_END, ODD_ADDS) },
        2 => Op::Need { cell, amount: amount(random, TAKE_END, ODD_TAKES) },
        _ => {
            let second = other_cell(random, cell);
            Op::Move { cell, second, amount: amount(random, TAKE_END, ODD_TAKES) }
        }
    }
}

/// A cell other than the one given.
fn other_cell(random: &mut Random, cell: u8) -> u8 {
    let second = self::cell(random);
    if second == cell {
        (cell + 1) % CELLS as u8
    } else {
        second
    }
}

/// A valid request with so many operations.
pub fn request(random: &mut Random, id: u32, class: u8, count: usize) -> Request {
    let ops = (0..count).map(|_| op(random)).collect();
    Request { id, class, ops }
}

/// A way to break a record.
pub type Damage = fn(&mut Random, &mut [u8; RECORD_BYTES]);

/// The ways to break a record, one for each rule, and changes that may leave it valid.
pub const DAMAGES: [Damage; 16] = [
    |_, record| record[..CLASS_AT].fill(0),
    odd_class,
    |random, record| record[COUNT_AT] = random.pick(&ODD_COUNTS),
    |random, record| record[COUNT_AT] = 1 + random.below(MAX_OPS) as u8,
    |random, record| record[ZERO_AT] = any_but_zero(random),
    |random, record| record[ZERO_AT + 1] = any_but_zero(random),
    |random, record| record[op_at(random, record)] = random.pick(&ODD_CODES),
    |random, record| record[op_at(random, record)] = 1 + random.below(4) as u8,
    odd_cell,
    |random, record| record[op_at(random, record) + OP_SECOND_AT] = any_but_zero(random),
    odd_second,
    equal_cells,
    |random, record| record[op_at(random, record) + OP_ZERO_AT] = any_but_zero(random),
    past_the_number,
    |random, record| record[random.below(RECORD_BYTES)] = random.byte(),
    |random, record| record[random.below(RECORD_BYTES)] ^= 1 << random.below(8),
];

/// Any byte but zero.
fn any_but_zero(random: &mut Random) -> u8 {
    1 + random.below(255) as u8
}

/// Where one of the operations within the number starts.
fn op_at(random: &mut Random, record: &[u8; RECORD_BYTES]) -> usize {
    OPS_AT + OP_BYTES * random.below(usize::from(record[COUNT_AT]))
}

/// Gives a record a class at or past the end.
pub fn odd_class(random: &mut Random, record: &mut [u8; RECORD_BYTES]) {
    record[CLASS_AT] = random.pick(&ODD_CLASSES);
}

/// Gives an operation a cell at or past the end.
pub fn odd_cell(random: &mut Random, record: &mut [u8; RECORD_BYTES]) {
    record[op_at(random, record) + OP_CELL_AT] = random.pick(&ODD_CELLS);
}

/// Makes an operation a move to a cell at or past the end.
pub fn odd_second(random: &mut Random, record: &mut [u8; RECORD_BYTES]) {
    let at = op_at(random, record);
    record[at] = MOVE;
    record[at + OP_SECOND_AT] = random.pick(&ODD_CELLS);
}

/// Makes an operation a move from a cell to itself.
fn equal_cells(random: &mut Random, record: &mut [u8; RECORD_BYTES]) {
    let at = op_at(random, record);
    record[at] = MOVE;
    record[at + OP_SECOND_AT] = record[at + OP_CELL_AT];
}

/// Sets a byte past the number of operations, if there is one.
fn past_the_number(random: &mut Random, record: &mut [u8; RECORD_BYTES]) {
    let start = OPS_AT + OP_BYTES * usize::from(record[COUNT_AT]);
    if start < RECORD_BYTES {
        record[start + random.below(RECORD_BYTES - start)] = any_but_zero(random);
    }
}
