//! Control: every table thread runs on a stack of its own, as plain calls of
//! the eight files' methods. `pause` and `ask` hand control back to the driver.

use std::arch::global_asm;
use std::cell::Cell;
use std::panic::{catch_unwind, AssertUnwindSafe};
use std::ptr;

use super::location::Race;
use super::run::{self, Ground};
use super::{Execution, MAX_THREADS};

#[cfg(not(any(target_arch = "x86_64", target_arch = "aarch64")))]
compile_error!("the switch between stacks is written for x86_64 and aarch64");

// oracle_switch(save: *mut usize, load: usize): pushes the registers that a
// call must keep, saves the stack pointer, and goes on where `load` stopped.
#[cfg(target_arch = "x86_64")]
global_asm!(
    ".global oracle_switch",
    "oracle_switch:",
    "push rbp",
    "push rbx",
    "push r12",
    "push r13",
    "push r14",
    "push r15",
    "mov [rdi], rsp",
    "mov rsp, rsi",
    "pop r15",
    "pop r14",
    "pop r13",
    "pop r12",
    "pop rbx",
    "pop rbp",
    "ret",
);

#[cfg(target_arch = "aarch64")]
global_asm!(
    ".global oracle_switch",
    "oracle_switch:",
    "sub sp, sp, #160",
    "stp x29, x30, [sp, #0]",
    "stp x19, x20, [sp, #16]",
    "stp x21, x22, [sp, #32]",
    "stp x23, x24, [sp, #48]",
    "stp x25, x26, [sp, #64]",
    "stp x27, x28, [sp, #80]",
    "stp d8, d9, [sp, #96]",
    "stp d10, d11, [sp, #112]",
    "stp d12, d13, [sp, #128]",
    "stp d14, d15, [sp, #144]",
    "mov x9, sp",
    "str x9, [x0]",
    "mov sp, x1",
    "ldp x29, x30, [sp, #0]",
    "ldp x19, x20, [sp, #16]",
    "ldp x21, x22, [sp, #32]",
    "ldp x23, x24, [sp, #48]",
    "ldp x25, x26, [sp, #64]",
    "ldp x27, x28, [sp, #80]",
    "ldp d8, d9, [sp, #96]",
    "ldp d10, d11, [sp, #112]",
    "ldp d12, d13, [sp, #128]",
    "ldp d14, d15, [sp, #144]",
    "add sp, sp, #160",
    "ret",
);

extern "C" {
    fn oracle_switch(save: *mut usize, load: usize);
}

/// A panic's way up a stack takes some ten kilobytes; the rest is distance.
const STACK: usize = 128 * 1024;
/// What a switch leaves on a stack, in words, and which of them says where it
/// goes on.
#[cfg(target_arch = "x86_64")]
const SAVED: (usize, usize) = (8, 6);
#[cfg(target_arch = "aarch64")]
const SAVED: (usize, usize) = (20, 1);

/// Why a thread gave control back.
#[derive(Clone, Copy)]
pub(super) enum Stop {
    /// It announced, parked or woke spuriously.
    Paused,
    /// It asks whether a wait wakes spuriously.
    Asked,
    /// Its operations are done.
    Ended,
    /// An object file panicked; `Some` carries who is ahead in a race.
    Failed(Option<usize>),
}

pub(super) struct Control {
    stacks: Vec<Box<[u8]>>,
    /// Where each thread's stack stopped; 0 before its first turn.
    stopped: [usize; MAX_THREADS],
    driver: usize,
    running: usize,
    stop: Stop,
    answer: bool,
}

thread_local! {
    static GROUND: Cell<*mut Ground> = const { Cell::new(ptr::null_mut()) };
}

impl Control {
    pub(super) fn new() -> Control {
        Control {
            stacks: (0..MAX_THREADS).map(|_| vec![0; STACK].into_boxed_slice()).collect(),
            stopped: [0; MAX_THREADS],
            driver: 0,
            running: 0,
            stop: Stop::Paused,
            answer: false,
        }
    }

    /// All threads are new again. A thread that stopped half way owns nothing
    /// but its stack, so its frames may simply be forgotten.
    pub(super) fn restart(&mut self) {
        self.stopped = [0; MAX_THREADS];
    }

    /// A stack on which a switch arrives at `entry`.
    fn fresh(&mut self, thread: usize) -> usize {
        let stack = &mut self.stacks[thread];
        let top = (stack.as_mut_ptr() as usize + STACK) & !15;
        let word = std::mem::size_of::<usize>();
        let stopped = top - SAVED.0 * word;
        let entry_at = stopped + SAVED.1 * word;
        // SAFETY: all of it lies inside this thread's own stack.
        unsafe {
            ptr::write_bytes(stopped as *mut u8, 0, top - stopped);
            *(entry_at as *mut usize) = entry as *const () as usize;
        }
        stopped
    }
}

/// Makes `ground` the one that the eight files reach.
pub(super) fn enter(ground: *mut Ground) {
    GROUND.with(|current| current.set(ground));
}

pub(super) fn ground() -> *mut Ground {
    GROUND.with(|current| current.get())
}

pub(super) fn with_execution<F, R>(f: F) -> R
where
    F: FnOnce(&mut Execution) -> R,
{
    // SAFETY: `enter` came first; the driver holds no reference to the
    // execution while a thread runs, and one thread runs at a time.
    f(unsafe { &mut (*ground()).execution })
}

/// Driver's side: lets a thread run until it stops.
pub(super) fn resume(thread: usize, answer: bool) -> Stop {
    let ground = ground();
    // SAFETY: the control record is touched by one side at a time.
    unsafe {
        let control = &raw mut (*ground).control;
        if (*control).stopped[thread] == 0 {
            (*control).stopped[thread] = (*control).fresh(thread);
        }
        (*control).running = thread;
        (*control).answer = answer;
        oracle_switch(&raw mut (*control).driver, (*control).stopped[thread]);
        (*control).stop
    }
}

/// Thread's side: gives control back; returns when the driver resumes it.
fn give_back(stop: Stop) {
    let ground = ground();
    // SAFETY: as in `resume`.
    unsafe {
        let control = &raw mut (*ground).control;
        (*control).stop = stop;
        let running = (*control).running;
        oracle_switch(&raw mut (*control).stopped[running], (*control).driver);
    }
}

pub(super) fn pause() {
    give_back(Stop::Paused);
}

pub(super) fn ask() -> bool {
    give_back(Stop::Asked);
    // SAFETY: as in `resume`.
    unsafe { (*ground()).control.answer }
}

/// The bottom of a thread's stack. No panic passes it.
extern "C" fn entry() -> ! {
    let stop = match catch_unwind(AssertUnwindSafe(run::live)) {
        Ok(()) => Stop::Ended,
        Err(payload) => Stop::Failed(payload.downcast_ref::<Race>().map(|race| race.ahead)),
    };
    give_back(stop);
    // The driver resumes runnable threads only.
    std::process::abort();
}
