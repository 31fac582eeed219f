//! The 64-byte request record: its rules, reading it and writing it.

/// Bytes in a record.
pub const RECORD_BYTES: usize = 64;
/// Classes of a site.
pub const CLASSES: usize = 16;
/// Cells of a class.
pub const CELLS: usize = 64;
/// The most operations a request may have.
pub const MAX_OPS: usize = 7;
/// Where the class stands in a record.
pub const CLASS_AT: usize = 4;
/// Where the number of operations stands in a record.
pub const COUNT_AT: usize = 5;
/// Where the two bytes that must be zero start.
pub const ZERO_AT: usize = 6;
/// Where the operations start.
pub const OPS_AT: usize = 8;
/// Bytes in an operation.
pub const OP_BYTES: usize = 8;
/// Where the cell stands in an operation.
pub const OP_CELL_AT: usize = 1;
/// Where the second cell stands in an operation.
pub const OP_SECOND_AT: usize = 2;
/// Where the byte that must be zero stands in an operation.
pub const OP_ZERO_AT: usize = 3;
/// Where the amount starts in an operation.
pub const OP_AMOUNT_AT: usize = 4;

/// The code of put.
pub const PUT: u8 = 1;
/// The code of add.
pub const ADD: u8 = 2;
/// The code of need.
pub const NEED: u8 = 3;
/// The code of move.
pub const MOVE: u8 = 4;

/// One operation of a request.
#[derive(Clone, Copy, Debug, PartialEq, Eq)]
pub enum Op {
    /// The cell becomes the amount.
    Put { cell: u8, amount: u32 },
    /// The amount is added to the cell modulo 2^32.
    Add { cell: u8, amount: u32 },
    /// Declines if the cell is less than the amount.
    Need { cell: u8, amount: u32 },
    /// Takes the amount from the cell and gives it to the second, or declines.
    Move { cell: u8, second: u8, amount: u32 },
}

/// A request: who it is, which class it is for, what it does.
#[derive(Clone, Debug, PartialEq, Eq)]
pub struct Request {
    /// The id, not 0 in a valid request.
    pub id: u32,
    /// The class, 0 to 15 in a valid request.
    pub class: u8,
    /// The operations, 1 to 7 in a valid request.
    pub ops: Vec<Op>,
}

/// Reads a record; none if it breaks any rule.
pub fn parse(bytes: &[u8]) -> Option<Request> {
    let record = right_length(bytes)?;
    let id = valid_id(record)?;
    let class = valid_class(record)?;
    let count = valid_count(record)?;
    let (used, past) = record[OPS_AT..].split_at(count * OP_BYTES);
    if !filler_is_zero(record) || !all_zero(past) {
        return None;
    }
    let ops = used.chunks(OP_BYTES).map(parse_op).collect::<Option<Vec<Op>>>()?;
    Some(Request { id, class, ops })
}

/// A record is exactly 64 bytes.
fn right_length(bytes: &[u8]) -> Option<&[u8; RECORD_BYTES]> {
    bytes.try_into().ok()
}

/// The id is not 0.
fn valid_id(record: &[u8; RECORD_BYTES]) -> Option<u32> {
    Some(number_at(record, 0)).filter(|&id| id != 0)
}

/// The class is 0 to 15.
fn valid_class(record: &[u8; RECORD_BYTES]) -> Option<u8> {
    Some(record[CLASS_AT]).filter(|&class| usize::from(class) < CLASSES)
}

/// The number of operations is 1 to 7.
fn valid_count(record: &[u8; RECORD_BYTES]) -> Option<usize> {
    Some(usize::from(record[COUNT_AT])).filter(|count| (1..=MAX_OPS).contains(count))
}

/// Bytes 6 and 7 are zero.
fn filler_is_zero(record: &[u8; RECORD_BYTES]) -> bool {
    all_zero(&record[ZERO_AT..OPS_AT])
}

/// Reads one operation within the number; none if it breaks any rule.
fn parse_op(bytes: &[u8]) -> Option<Op> {
    let (code, cell, second) = (bytes[0], bytes[OP_CELL_AT], bytes[OP_SECOND_AT]);
    let amount = number_at(bytes, OP_AMOUNT_AT);
    if !is_cell(cell) || !second_is_right(code, cell, second) || bytes[OP_ZERO_AT] != 0 {
        return None;
    }
    match code {
        PUT => Some(Op::Put { cell, amount }),
        ADD => Some(Op::Add { cell, amount }),
        NEED => Some(Op::Need { cell, amount }),
        MOVE => Some(Op::Move { cell, second, amount }),
        _ => None,
    }
}

/// A cell is 0 to 63.
fn is_cell(cell: u8) -> bool {
    usize::from(cell) < CELLS
}

/// The second cell is zero, but for move a cell other than the first.
fn second_is_right(code: u8, cell: u8, second: u8) -> bool {
    if code == MOVE {
        is_cell(second) && second != cell
    } else {
        second == 0
    }
}

/// Whether all bytes are zero.
fn all_zero(bytes: &[u8]) -> bool {
    bytes.iter().all(|&byte| byte == 0)
}

/// The 4-byte number that starts at a place, low byte first.
pub fn number_at(bytes: &[u8], at: usize) -> u32 {
    u32::from_le_bytes([bytes[at], bytes[at + 1], bytes[at + 2], bytes[at + 3]])
}

/// Writes a request as a record, valid or not; it holds at most seven operations.
pub fn write(request: &Request) -> [u8; RECORD_BYTES] {
    assert!(request.ops.len() <= MAX_OPS, "a record holds at most seven operations");
    let mut record = [0; RECORD_BYTES];
    record[..CLASS_AT].copy_from_slice(&request.id.to_le_bytes());
    record[CLASS_AT] = request.class;
    record[COUNT_AT] = request.ops.len() as u8;
    for (op, place) in request.ops.iter().zip(0..) {
        let at = OPS_AT + place * OP_BYTES;
        record[at..at + OP_BYTES].copy_from_slice(&write_op(*op));
    }
    record
}

/// Writes one operation as its 8 bytes.
fn write_op(op: Op) -> [u8; OP_BYTES] {
    let (code, cell, second, amount) = match op {
        Op::Put { cell, amount } => (PUT, cell, 0, amount),
        Op::Add { cell, amount } => (ADD, cell, 0, amount),
        Op::Need { cell, amount } => (NEED, cell, 0, amount),
        Op::Move { cell, second, amount } => (MOVE, cell, second, amount),
    };
    let [low, next, third, high] = amount.to_le_bytes();
    [code, cell, second, 0, low, next, third, high]
}
