//! Books kept from the library's answers: no request is put back oftener than they allow.

use crate::call::{Call, Outcome};
use crate::view::used;
use model::books::Books;
use shpendorak::Answer;

/// Enters what a call answered.
pub fn enter(books: &mut Books, call: &Call, made: &Outcome) {
    match (call, made.answer) {
        (_, Ok(Answer::Queued { id, class, .. })) => books.enter_queued(id, class),
        (_, Ok(Answer::Waiting { id, .. } | Answer::Committed { id, .. })) => {
            books.enter_confirmed(id);
        }
        (Call::Query { mask }, Ok(Answer::Begun { .. })) => books.enter_query(*mask),
        _ => {}
    }
}

/// The counts of times put back that a call shows, each with its id: in the used slots of the site
/// handed back, and in its answer.
pub fn shown(call: &Call, made: &Outcome) -> Vec<(u32, u64)> {
    let slots = used(&made.after).map(|slot| (slot.id, slot.backs));
    let told = match (call, made.answer) {
        (_, Ok(Answer::Committed { id, backs, .. })) => Some((id, backs)),
        (Call::Look { id }, Ok(Answer::ToDo { backs, .. } | Answer::Unconfirmed { backs })) => {
            Some((*id as u32, backs))
        }
        _ => None,
    };
    slots.chain(told).collect()
}
