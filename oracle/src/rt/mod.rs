//! The ground under loom's eight lock-object files.
//!
//! The eight are taken unchanged from the folder LOOM_RT. What they import is
//! written here from the paper's ground rules, under loom's names. A module
//! that holds one of the eight has a few items of the ground behind the file's
//! text, because only there can its private state be read.

macro_rules! location {
    () => {
        crate::rt::Location::disabled()
    };
}

mod access;
mod control;
mod execution;
mod location;
mod run;
mod sheet;
mod synchronize;
mod thread;
mod vv;

use self::access::Access;
use self::execution::Execution;
use self::location::Location;
use self::synchronize::Synchronize;
use self::vv::VersionVec;

pub(crate) use self::run::Run;

/// Places of a clock: the most threads that a table has.
pub(crate) const MAX_THREADS: usize = 6;

/// Messages that a channel holds and waiters that a condvar holds, at most.
const MESSAGES: usize = 16;
const WAITERS: usize = 8;

// ===== what the eight files call =====

/// Access to the state of the run.
fn execution<F, R>(f: F) -> R
where
    F: FnOnce(&mut Execution) -> R,
{
    control::with_execution(f)
}

/// An announcement: `f` announces, then the turn is over.
fn branch<F, R>(f: F) -> R
where
    F: FnOnce(&mut Execution) -> R,
{
    let ret = execution(f);
    control::pause();
    ret
}

/// A step before which the active thread's own count rises by one.
fn synchronize<F, R>(f: F) -> R
where
    F: FnOnce(&mut Execution) -> R,
{
    execution(|execution| {
        execution.threads.active_causality_inc();
        f(execution)
    })
}

/// Stops the active thread, unless an unpark is stored: that is used up.
fn park(location: Location) {
    let stops = execution(|execution| {
        let active = execution.threads.active_mut();
        if active.has_stored_unpark() {
            active.set_runnable();
            return false;
        }
        active.set_blocked(location);
        active.operation = None;
        active.parked = true;
        true
    });
    if stops {
        control::pause();
    }
}

/// A spurious wake: the wait is done, the thread stands runnable with no
/// stored unpark, and the turn is over.
fn yield_now() {
    execution(|execution| {
        let active = execution.threads.active_mut();
        active.set_runnable();
        active.operation = None;
        active.position += 1;
    });
    control::pause();
}

// ===== loom's eight files =====

#[allow(dead_code, unused, mismatched_lifetime_syntaxes)]
mod object {
    include!(concat!(env!("LOOM_RT"), "/object.rs"));

    /// The object's number: objects are made in the table's order.
    pub(super) fn number(of: Ref) -> usize {
        of.index
    }
}

#[allow(dead_code, unused)]
mod mutex {
    include!(concat!(env!("LOOM_RT"), "/mutex.rs"));

    /// Holder and clock.
    pub(super) fn look<'a>(
        of: &Mutex,
        objects: &'a object::Store,
    ) -> (Option<usize>, &'a Synchronize) {
        let state = of.state.get(objects);
        (state.lock.map(usize::from), &state.synchronize)
    }
}

#[allow(dead_code, unused)]
mod rwlock {
    include!(concat!(env!("LOOM_RT"), "/rwlock.rs"));

    /// Form, then reader mask or writer, then clock.
    pub(super) fn look<'a>(of: &RwLock, objects: &'a object::Store) -> (u8, u8, &'a Synchronize) {
        let state = of.state.get(objects);
        let (form, who) = match &state.lock {
            None => (0, 0),
            Some(Locked::Read(readers)) => {
                (1, readers.iter().fold(0, |mask, id| mask | 1 << usize::from(*id)))
            }
            Some(Locked::Write(writer)) => (2, usize::from(*writer) as u8),
        };
        (form, who, &state.synchronize)
    }
}

#[allow(dead_code, unused)]
mod mpsc {
    include!(concat!(env!("LOOM_RT"), "/mpsc.rs"));

    /// Count, sender clock, message clocks oldest first.
    pub(super) fn look<'a>(
        of: &Channel,
        objects: &'a object::Store,
    ) -> (usize, &'a Synchronize, &'a VecDeque<Synchronize>) {
        let state = of.state.get(objects);
        (state.msg_cnt, &state.sender_synchronize, &state.receiver_synchronize)
    }

    /// The Rust's queue grows; the port's has an end.
    pub(super) fn is_full(of: &Channel, objects: &object::Store) -> bool {
        of.state.get(objects).msg_cnt >= crate::rt::MESSAGES
    }
}

#[allow(dead_code, unused)]
mod arc {
    include!(concat!(env!("LOOM_RT"), "/arc.rs"));

    /// Count and clock.
    pub(super) fn look<'a>(of: &Arc, objects: &'a object::Store) -> (usize, &'a Synchronize) {
        let state = of.state.get(objects);
        (state.ref_cnt, &state.synchronize)
    }
}

#[allow(dead_code, unused)]
mod notify {
    include!(concat!(env!("LOOM_RT"), "/notify.rs"));

    /// Notified, did_spur, clock.
    pub(super) fn look<'a>(
        of: &Notify,
        objects: &'a object::Store,
    ) -> (bool, bool, &'a Synchronize) {
        let state = of.state.get(objects);
        (state.notified, state.did_spur, &state.synchronize)
    }
}

#[allow(dead_code, unused)]
mod condvar {
    include!(concat!(env!("LOOM_RT"), "/condvar.rs"));

    /// Waiters oldest first.
    pub(super) fn look<'a>(of: &Condvar, objects: &'a object::Store) -> &'a VecDeque<thread::Id> {
        &of.state.get(objects).waiters
    }

    /// The Rust's queue grows; the port's has an end.
    pub(super) fn is_full(of: &Condvar, objects: &object::Store) -> bool {
        of.state.get(objects).waiters.len() >= crate::rt::WAITERS
    }
}

#[allow(dead_code, unused)]
mod cell {
    include!(concat!(env!("LOOM_RT"), "/cell.rs"));

    /// Reading, writing, read clock, write clock.
    pub(super) fn look<'a>(
        of: &Cell,
        objects: &'a object::Store,
    ) -> (usize, bool, &'a VersionVec, &'a VersionVec) {
        let state = of.state.get(objects);
        (state.is_reading, state.is_writing, &state.read_access, &state.write_access)
    }

    /// A table says when a read begins: its guard is not dropped by scope.
    pub(super) fn begin_read(of: &Cell, location: Location) {
        std::mem::forget(of.start_read(location));
    }

    pub(super) fn begin_write(of: &Cell, location: Location) {
        std::mem::forget(of.start_write(location));
    }

    /// The explicit ends: the guard's own drop, run where the table says.
    pub(super) fn end_read(of: &Cell) {
        drop(Reading { state: of.state });
    }

    pub(super) fn end_write(of: &Cell) {
        drop(Writing { state: of.state });
    }
}

use self::arc::Arc;
use self::cell::Cell;
use self::condvar::Condvar;
use self::mpsc::Channel;
use self::mutex::Mutex;
use self::notify::Notify;
use self::rwlock::RwLock;

// ===== entries that no table makes =====

/// object.rs names an entry for allocations; no table has one.
mod alloc {
    #[derive(Debug)]
    pub(super) struct State {}

    impl State {
        pub(super) fn check_for_leaks(&self, _index: usize) {}
    }
}

/// object.rs names an entry for atomics; no table has one.
mod atomic {
    use super::{Access, VersionVec};

    #[derive(Debug, Copy, Clone, PartialEq)]
    pub(super) struct Action;

    #[derive(Debug)]
    pub(super) struct State {}

    impl State {
        pub(super) fn last_dependent_access(&self, _action: Action) -> Option<&Access> {
            None
        }

        pub(super) fn set_last_access(&mut self, _: Action, _path_id: usize, _: &VersionVec) {}
    }
}
