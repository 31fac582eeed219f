//! The archive held against plain Rust with the same check: the same calls on both, their answers, time and stack.

pub mod archive;
pub mod call;
pub mod load;
pub mod plain;
pub mod stack;

pub use shpendorak::raw;
