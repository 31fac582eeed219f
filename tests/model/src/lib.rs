//! A plain model of one site, written from the rules of the build alone.
//!
//! It shares no code with the engine, so that the two can be held against each other.

pub mod answer;
pub mod books;
pub mod command;
pub mod compare;
pub mod craft;
pub mod event;
pub mod maker;
pub mod random;
pub mod record;
pub mod site;
pub mod sound;
pub mod stream;
pub mod tally;
pub mod text;
pub mod typed;
