//! An object's clock: stores join the active thread's clock into it, loads
//! join it into the active thread's.

use std::sync::atomic::Ordering;

use super::{thread, VersionVec};

#[derive(Debug, Clone, Copy)]
pub(crate) struct Synchronize {
    clock: VersionVec,
}

impl Synchronize {
    pub(super) fn new() -> Synchronize {
        Synchronize { clock: VersionVec::new() }
    }

    pub(super) fn sync_load(&mut self, threads: &mut thread::Set, order: Ordering) {
        // strong_count loads with SeqCst: a seq_cst point changes no clock.
        if matches!(order, Ordering::Acquire | Ordering::SeqCst) {
            threads.active_mut().causality.join(&self.clock);
        }
    }

    pub(super) fn sync_store(&mut self, threads: &mut thread::Set, order: Ordering) {
        if matches!(order, Ordering::Release | Ordering::SeqCst) {
            self.clock.join(&threads.active().causality);
        }
    }

    pub(super) fn bytes(&self) -> &[u8; super::MAX_THREADS] {
        self.clock.bytes()
    }
}
