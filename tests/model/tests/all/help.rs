//! Short ways to write requests and calls.

use model::answer::Answer;
use model::record::{write, Op, Request};
use model::site::Site;
use std::io::Write;
use std::process::{Command, Output, Stdio};

/// A put.
pub fn put(cell: u8, amount: u32) -> Op {
    Op::Put { cell, amount }
}

/// An add.
pub fn add(cell: u8, amount: u32) -> Op {
    Op::Add { cell, amount }
}

/// A need.
pub fn need(cell: u8, amount: u32) -> Op {
    Op::Need { cell, amount }
}

/// A move.
pub fn shift(cell: u8, second: u8, amount: u32) -> Op {
    Op::Move { cell, second, amount }
}

/// The request with these parts.
pub fn request(id: u32, class: u8, ops: &[Op]) -> Request {
    Request { id, class, ops: ops.to_vec() }
}

/// The id of the first request that is taken to its commit at once.
pub const FIRST_ID: u32 = 1_000_000;

/// Offers a request.
pub fn offer(site: &mut Site, id: u32, class: u8, ops: &[Op]) -> Answer {
    site.offer(&write(&request(id, class, ops)))
}

/// Confirms an id under the right number.
pub fn confirm(site: &mut Site, id: u32) -> Answer {
    site.confirm(id, site.confirmations + 1)
}

/// Works so many times for a class; the last answer.
pub fn work(site: &mut Site, class: u8, times: usize) -> Answer {
    let answers = (0..times).map(|_| site.work(class));
    answers.last().expect("at least one work call")
}

/// Offers, confirms and works a request with a new id to its commit; its mark.
pub fn through(site: &mut Site, class: u8, ops: &[Op]) -> usize {
    let id = FIRST_ID + site.confirmations;
    offer(site, id, class, ops);
    confirm(site, id);
    match work(site, class, ops.len()) {
        Answer::Committed { id: committed, mark, .. } if committed == id => mark,
        other => panic!("{other:?} instead of a commit"),
    }
}

/// The ids in the queue of a class, head first.
pub fn ids(site: &Site, class: usize) -> Vec<u32> {
    let queue = site.classes[class].queue.iter();
    queue.map(|item| item.request().expect("a request").request.id).collect()
}

/// Runs the model's program with arguments and an input.
pub fn program(args: &[&str], input: &[u8]) -> Output {
    let mut child = Command::new(env!("CARGO_BIN_EXE_model"))
        .args(args)
        .stdin(Stdio::piped())
        .stdout(Stdio::piped())
        .stderr(Stdio::piped())
        .spawn()
        .expect("the program starts");
    let mut stdin = child.stdin.take().expect("the input is ours");
    stdin.write_all(input).expect("the program reads its input");
    drop(stdin);
    child.wait_with_output().expect("the program ends")
}
