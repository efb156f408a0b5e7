//! The state of one run: threads, objects, and the question to the list.

use super::control;
use super::{object, thread};

#[derive(Debug)]
pub(crate) struct Execution {
    pub(super) threads: thread::Set,
    pub(super) objects: object::Store,
    pub(super) path: Path,
    /// Turns begun.
    pub(super) turn: usize,
}

#[derive(Debug)]
pub(crate) struct Path;

impl Path {
    /// The spurious question: control goes to the driver, which comes back
    /// with the list's next decision, or not at all.
    pub(super) fn branch_spurious(&mut self) -> bool {
        control::ask()
    }
}

impl Execution {
    pub(super) fn new() -> Execution {
        Execution {
            threads: thread::Set::new(),
            objects: object::Store::with_capacity(16),
            path: Path,
            turn: 0,
        }
    }

    pub(super) fn restart(&mut self, threads: usize) {
        self.threads.restart(threads);
        self.objects.clear();
        self.turn = 0;
    }

    /// The beginning of a turn. If the thread has announced an operation, its
    /// dependence step happens, and the operation is no longer announced.
    pub(super) fn begin_turn(&mut self, number: usize) {
        self.turn += 1;
        self.threads.set_active(number);
        let id = self.threads.active_id();
        let active = self.threads.active_mut();
        active.parked = false;
        if let Some(operation) = active.operation.take() {
            if let Some(access) = self.objects.last_dependent_access(operation) {
                active.dependence.join(access.version());
            }
            active.dependence.inc(id);
            self.objects.set_last_access(operation, self.turn, &active.dependence);
        }
    }
}
