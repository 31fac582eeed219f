//! A request record of 64 bytes, read into a slot.

use crate::plain::sound::holds;
use crate::raw::{MOST_OPS, Op, Slot};
use model::record::*;

/// The new slot of a record; none where the bytes are no record.
pub fn parse(bytes: &[u8]) -> Option<Slot> {
    let bytes: &[u8; RECORD_BYTES] = bytes.try_into().ok()?;
    if bytes[ZERO_AT..OPS_AT] != [0, 0] {
        return None;
    }
    let mut ops = [Op::default(); MOST_OPS];
    for (op, raw) in ops.iter_mut().zip(bytes[OPS_AT..].chunks_exact(OP_BYTES)) {
        if raw[OP_ZERO_AT] != 0 {
            return None;
        }
        let amount = number_at(raw, OP_AMOUNT_AT);
        *op = Op { code: raw[0], cell: raw[OP_CELL_AT], second: raw[OP_SECOND_AT], amount };
    }
    let id = number_at(bytes, 0);
    let (class, count) = (bytes[CLASS_AT], bytes[COUNT_AT]);
    let slot = Slot { id, class, count, ops, ..Slot::default() };
    holds(&slot).then_some(slot)
}
