//! The sheet's bytes, read from the private states of the eight files.

use super::object;
use super::run::{Ground, Handle};
use super::thread::{State, Thread};
use super::{arc, cell, condvar, mpsc, mutex, notify, rwlock};
use super::{Execution, MAX_THREADS, MESSAGES, WAITERS};

const NOBODY: u8 = 0xFF;

/// Writes the sheet of the present state.
pub(super) fn write(ground: &Ground, execution: &Execution, out: &mut Vec<u8>) {
    out.clear();
    for (number, thread) in execution.threads.all().iter().enumerate() {
        out.extend([0x80, state(thread), thread.position as u8]);
        out.extend([phase(ground, number, thread), thread.last_answer]);
        out.extend(thread.causality.bytes());
        out.extend(thread.dependence.bytes());
    }
    for handle in &ground.handles {
        object_record(handle, &execution.objects, out);
    }
}

fn state(thread: &Thread) -> u8 {
    match thread.state {
        State::Runnable { unparked: false } => 0,
        State::Runnable { unparked: true } => 1,
        State::Blocked => 2,
        State::Ended => 3,
    }
}

/// A thread that announces something other than its operation's own object
/// retakes the mutex of a condvar wait.
fn phase(ground: &Ground, number: usize, thread: &Thread) -> u8 {
    match &thread.operation {
        None if thread.parked => 2,
        None => 0,
        Some(operation) => {
            let own = ground.table.threads[number][thread.position].object;
            if object::number(operation.object()) == own as usize {
                1
            } else {
                3
            }
        }
    }
}

fn object_record(handle: &Handle, objects: &object::Store, out: &mut Vec<u8>) {
    match handle {
        Handle::Mutex(of) => {
            let (holder, clock) = mutex::look(of, objects);
            out.extend([0x90, holder.map_or(NOBODY, |id| id as u8)]);
            out.extend(clock.bytes());
        }
        Handle::RwLock(of) => {
            let (form, who, clock) = rwlock::look(of, objects);
            out.extend([0x91, form, who]);
            out.extend(clock.bytes());
        }
        Handle::Condvar(of) => {
            let waiters = condvar::look(of, objects);
            out.extend([0x92, waiters.len() as u8]);
            out.extend(waiters.iter().map(|id| usize::from(*id) as u8));
            out.extend((waiters.len()..WAITERS).map(|_| NOBODY));
        }
        Handle::Notify(of) => {
            let (notified, did_spur, clock) = notify::look(of, objects);
            out.extend([0x93, notified as u8, did_spur as u8]);
            out.extend(clock.bytes());
        }
        Handle::Channel(of) => {
            let (count, sender, messages) = mpsc::look(of, objects);
            out.extend([0x94, count as u8]);
            out.extend(sender.bytes());
            for message in messages {
                out.extend(message.bytes());
            }
            out.extend((messages.len()..MESSAGES).flat_map(|_| [0; MAX_THREADS]));
        }
        Handle::Arc(of) => {
            let (count, clock) = arc::look(of, objects);
            out.extend([0x95, count as u8]);
            out.extend(clock.bytes());
        }
        Handle::Cell(of) => {
            let (reading, writing, read, write) = cell::look(of, objects);
            out.extend([0x96, reading as u8, writing as u8]);
            out.extend(read.bytes());
            out.extend(write.bytes());
        }
    }
}
