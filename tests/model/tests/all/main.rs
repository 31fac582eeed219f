//! The tests of the model, one file for each part of the rules.

mod backs;
mod compare;
mod demands;
mod edges;
mod errors;
mod event;
mod help;
mod kept;
mod ledger;
mod queries;
mod record;
mod refusals;
mod sound;
mod stream;
mod text;
mod thirteen;
mod typed;
mod unlucky;
