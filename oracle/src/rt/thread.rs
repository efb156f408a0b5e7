//! Thread records and the set of them, by the paper's ground rules.

use super::object::Operation;
use super::{Location, VersionVec};

#[derive(Debug, Eq, PartialEq, Hash, Copy, Clone)]
pub(crate) struct Id {
    number: usize,
}

impl From<Id> for usize {
    fn from(id: Id) -> usize {
        id.number
    }
}

#[derive(Debug, Copy, Clone, Eq, PartialEq)]
pub(super) enum State {
    Runnable { unparked: bool },
    Blocked,
    Ended,
}

#[derive(Debug)]
pub(crate) struct Thread {
    // Only loom's trace reads it.
    #[allow(dead_code)]
    pub(super) id: Id,
    pub(super) state: State,
    /// The announced operation.
    pub(super) operation: Option<Operation>,
    /// Stopped by `park` and not run since.
    pub(super) parked: bool,
    /// Operations done.
    pub(super) position: usize,
    pub(super) last_answer: u8,
    pub(super) causality: VersionVec,
    pub(super) dependence: VersionVec,
}

impl Thread {
    fn new(number: usize) -> Thread {
        Thread {
            id: Id { number },
            state: State::Runnable { unparked: false },
            operation: None,
            parked: false,
            position: 0,
            last_answer: 0,
            causality: VersionVec::new(),
            dependence: VersionVec::new(),
        }
    }

    pub(super) fn is_runnable(&self) -> bool {
        matches!(self.state, State::Runnable { .. })
    }

    pub(super) fn is_ended(&self) -> bool {
        self.state == State::Ended
    }

    pub(super) fn has_stored_unpark(&self) -> bool {
        self.state == State::Runnable { unparked: true }
    }

    pub(super) fn set_runnable(&mut self) {
        self.state = State::Runnable { unparked: false };
    }

    pub(super) fn set_blocked(&mut self, _: Location) {
        self.state = State::Blocked;
    }

    pub(super) fn set_ended(&mut self) {
        self.state = State::Ended;
        self.operation = None;
    }

    pub(super) fn unpark(&mut self, unparker: &Thread) {
        self.causality.join(&unparker.causality);
        self.state = match self.state {
            State::Blocked => State::Runnable { unparked: false },
            State::Runnable { .. } => State::Runnable { unparked: true },
            State::Ended => State::Ended,
        };
    }
}

#[derive(Debug)]
pub(crate) struct Set {
    threads: Vec<Thread>,
    active: usize,
}

impl Set {
    pub(super) fn new() -> Set {
        Set { threads: Vec::new(), active: 0 }
    }

    /// Back to the start, with this many threads. Thread 0 counts as active
    /// while the objects are made: all clocks are 0, so that changes nothing.
    pub(super) fn restart(&mut self, count: usize) {
        self.threads.clear();
        self.threads.extend((0..count).map(Thread::new));
        self.active = 0;
    }

    pub(super) fn all(&self) -> &[Thread] {
        &self.threads
    }

    pub(super) fn set_active(&mut self, number: usize) {
        self.active = number;
    }

    pub(super) fn is_active(&self) -> bool {
        true
    }

    pub(super) fn active_id(&self) -> Id {
        Id { number: self.active }
    }

    pub(super) fn active(&self) -> &Thread {
        &self.threads[self.active]
    }

    pub(super) fn active_mut(&mut self) -> &mut Thread {
        &mut self.threads[self.active]
    }

    pub(super) fn active_causality_inc(&mut self) {
        let id = self.active_id();
        self.active_mut().causality.inc(id);
    }

    pub(super) fn iter_mut(&mut self) -> impl Iterator<Item = (Id, &mut Thread)> + '_ {
        self.threads.iter_mut().enumerate().map(|(number, thread)| (Id { number }, thread))
    }

    /// The active thread, and all others.
    pub(super) fn split_active(&mut self) -> (&mut Thread, impl Iterator<Item = &mut Thread>) {
        let (before, rest) = self.threads.split_at_mut(self.active);
        let (active, after) = rest.split_at_mut(1);
        (&mut active[0], before.iter_mut().chain(after.iter_mut()))
    }

    /// unpark of the active thread does nothing.
    pub(super) fn unpark(&mut self, id: Id) {
        if id.number == self.active {
            return;
        }
        let active = self.active;
        let [unparker, target] = self
            .threads
            .get_disjoint_mut([active, id.number])
            .expect("two different threads of the set");
        target.unpark(unparker);
    }

    /// A seq_cst point changes no clock.
    pub(super) fn seq_cst(&mut self) {}
}
