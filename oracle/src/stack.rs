//! How much stack the archive's calls take: all of them on the tables at the
//! limits, in a thread that has no more than is said.

use std::thread;

use crate::archive::{self, Call};
use crate::random;

const SHEET: usize = 1766;
const LIST: usize = 600;
/// Runs of each table, by first and next.
const RUNS: usize = 20;

/// A thread whose stack is too small ends the program. True if none did.
pub fn within(kilobytes: usize) -> bool {
    if !Call::First.is_built_in() {
        println!("no archive with first and next is linked in");
        return false;
    }
    let calls =
        random::limits().into_iter().map(|(_, table)| in_thread(kilobytes, table)).sum::<usize>();
    println!("{calls} calls, each within {kilobytes} KB of stack");
    true
}

fn in_thread(kilobytes: usize, table: Vec<u8>) -> usize {
    let thread = thread::Builder::new().stack_size(kilobytes * 1024);
    let running = thread.spawn(move || walk(&table)).expect("a thread");
    running.join().expect("the calls end")
}

/// The number of calls. The buffers are on the heap: the stack is the calls'.
fn walk(table: &[u8]) -> usize {
    let (mut list, mut larger, mut sheet) = (vec![0; LIST], vec![0; LIST], vec![0; SHEET]);
    let mut found = archive::first(table, &mut list).and_then(archive::list_length);
    let mut calls = 1;
    for _ in 0..RUNS {
        let Some(length) = found else { break };
        archive::judge(table, &list[..length], &mut sheet);
        found = archive::next(table, &list[..length], &mut larger).and_then(archive::list_length);
        std::mem::swap(&mut list, &mut larger);
        calls += 2;
    }
    calls
}
