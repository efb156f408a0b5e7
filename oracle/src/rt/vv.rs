//! Clocks: one count per thread.

use super::thread;
use super::MAX_THREADS;

#[derive(Debug, Copy, Clone, Eq, PartialEq)]
pub(crate) struct VersionVec {
    counts: [u8; MAX_THREADS],
}

impl VersionVec {
    pub(super) fn new() -> VersionVec {
        VersionVec { counts: [0; MAX_THREADS] }
    }

    /// The larger count at each place.
    pub(super) fn join(&mut self, other: &VersionVec) {
        for (own, &count) in self.counts.iter_mut().zip(&other.counts) {
            *own = (*own).max(count);
        }
    }

    pub(super) fn inc(&mut self, id: thread::Id) {
        self.counts[usize::from(id)] += 1;
    }

    /// The lowest thread whose count in `other` is above the one here.
    pub(super) fn ahead(&self, other: &VersionVec) -> Option<usize> {
        (0..MAX_THREADS).find(|&place| self.counts[place] < other.counts[place])
    }

    pub(super) fn bytes(&self) -> &[u8; MAX_THREADS] {
        &self.counts
    }
}
