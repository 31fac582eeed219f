//! The cells of a class, and an operation on them.

use crate::raw::Op;
use model::record::{ADD, CELLS, NEED, PUT};

/// The 64 cells of a class in a run.
pub fn of_class(run: &mut [u32], class: usize) -> &mut [u32] {
    &mut run[CELLS * class..][..CELLS]
}

/// Carries out an operation on the cells of its class; false where it declines, and they stay as they are.
pub fn carry(op: &Op, cells: &mut [u32]) -> bool {
    let (cell, second) = (usize::from(op.cell), usize::from(op.second));
    match op.code {
        PUT => cells[cell] = op.amount,
        ADD => cells[cell] = cells[cell].wrapping_add(op.amount),
        NEED => return cells[cell] >= op.amount,
        _ => {
            let left = cells[cell].checked_sub(op.amount);
            let given = cells[second].checked_add(op.amount);
            let (Some(left), Some(given)) = (left, given) else {
                return false;
            };
            cells[cell] = left;
            cells[second] = given;
        }
    }
    true
}
