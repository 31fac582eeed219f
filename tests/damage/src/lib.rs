//! The library beside the model: traffic with all calls, and damaged sites thrown at each call.

mod aim;
mod ask;
mod call;
mod damage;
mod plain;
mod rules;
pub mod run;
mod subject;
mod tally;
mod unlucky;
mod view;
