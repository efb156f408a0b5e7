//! One run of a table: each thread's operations as calls of the eight files'
//! methods, and the driver that follows the decisions.

use std::panic::{catch_unwind, AssertUnwindSafe};

use super::control::{self, Control, Stop};
use super::{cell, condvar, mpsc, object, sheet};
use super::{Arc, Cell, Channel, Condvar, Execution, Location, Mutex, Notify, RwLock};
use crate::answer::{Answer, Machine, Step};
use crate::table::{Operation, Table};

/// An object of the table, as the eight files hand it out.
pub(super) enum Handle {
    Mutex(Mutex),
    RwLock(RwLock),
    Condvar(Condvar),
    Notify(Notify),
    Channel(Channel),
    Arc(Arc),
    Cell(Cell),
}

/// What the driver and the threads' stacks share.
pub(super) struct Ground {
    pub(super) execution: Execution,
    pub(super) control: Control,
    pub(super) table: Table,
    pub(super) handles: Vec<Handle>,
    /// The sheet as it stood before the last step that might fail or ask.
    shown: Vec<u8>,
}

/// The turn under way.
#[derive(Clone, Copy)]
struct Turn {
    thread: usize,
    /// The object announced when the turn began, and the position then.
    announced: Option<usize>,
    position: usize,
}

pub(crate) struct Run {
    /// A plain pointer: threads on their own stacks reach the ground too.
    ground: *mut Ground,
    turn: Turn,
    asked: bool,
    /// The answer's sheet is `shown`, not the present state.
    frozen: bool,
}

impl Run {
    pub(crate) fn new() -> Run {
        quiet_panics();
        let ground = Box::new(Ground {
            execution: Execution::new(),
            control: Control::new(),
            table: Table::default(),
            handles: Vec::new(),
            shown: Vec::new(),
        });
        Run {
            ground: Box::into_raw(ground),
            turn: Turn { thread: 0, announced: None, position: 0 },
            asked: false,
            frozen: false,
        }
    }

    /// Takes a table that has been read, and stands at its beginning.
    pub(crate) fn load(&mut self, table: Table) {
        self.ground_mut().table = table;
        self.restart();
    }

    /// A spurious question is open.
    pub(crate) fn is_asked(&self) -> bool {
        self.asked
    }

    /// The state as loom's panic has left it; the sheet shows the one before.
    pub(crate) fn left_behind(&self, out: &mut Vec<u8>) {
        let ground = self.ground();
        sheet::write(ground, &ground.execution, out);
    }

    fn ground(&self) -> &Ground {
        // SAFETY: no thread runs while the driver does; see `control`.
        unsafe { &*self.ground }
    }

    fn ground_mut(&mut self) -> &mut Ground {
        // SAFETY: as in `ground`.
        unsafe { &mut *self.ground }
    }

    /// Keeps the present sheet, for a step that might fail.
    fn show(&mut self) {
        let mut shown = std::mem::take(&mut self.ground_mut().shown);
        let ground = self.ground();
        sheet::write(ground, &ground.execution, &mut shown);
        self.ground_mut().shown = shown;
    }

    fn begin_turn(&mut self, thread: usize) {
        let execution = &mut self.ground_mut().execution;
        let record = &execution.threads.all()[thread];
        let turn = Turn {
            thread,
            announced: record.operation.as_ref().map(|op| object::number(op.object())),
            position: record.position,
        };
        execution.begin_turn(thread);
        self.turn = turn;
    }

    /// Answer 5 is the port's own, so it is looked for before the step.
    fn no_room(&self, thread: usize) -> bool {
        let ground = self.ground();
        let record = &ground.execution.threads.all()[thread];
        let Some(operation) = &record.operation else {
            return false;
        };
        let kind = ground.table.threads[thread][record.position].kind;
        match (kind, &ground.handles[object::number(operation.object())]) {
            (0x39, Handle::Condvar(of)) => condvar::is_full(of, &ground.execution.objects),
            (0x3E, Handle::Channel(of)) => mpsc::is_full(of, &ground.execution.objects),
            _ => false,
        }
    }

    fn go_on(&mut self, answer: bool) -> Step {
        control::enter(self.ground);
        match control::resume(self.turn.thread, answer) {
            Stop::Paused | Stop::Ended => self.after_turn(),
            Stop::Asked => {
                self.asked = true;
                self.frozen = true;
                Step::Wants
            }
            Stop::Failed(ahead) => self.failed(ahead),
        }
    }

    fn failed(&mut self, ahead: Option<usize>) -> Step {
        self.frozen = true;
        let turn = self.turn;
        let ground = self.ground();
        let position = ground.execution.threads.all()[turn.thread].position;
        let object = match turn.announced {
            Some(object) if position == turn.position => object as u8,
            _ => ground.table.threads[turn.thread][position].object,
        };
        Step::Verdict(Answer {
            number: if ahead.is_some() { 1 } else { 4 },
            thread: turn.thread as u8,
            position: position as u8,
            object,
            other: ahead.map_or(255, |other| other as u8),
            ..Answer::of(4)
        })
    }

    fn after_turn(&mut self) -> Step {
        let execution = &self.ground().execution;
        let threads = execution.threads.all();
        if threads.iter().any(|thread| thread.is_runnable()) {
            return Step::Wants;
        }
        let Some(stuck) = threads.iter().position(|thread| !thread.is_ended()) else {
            return Step::Verdict(leak_check(&execution.objects));
        };
        let operation = threads[stuck].operation.as_ref();
        Step::Verdict(Answer {
            thread: stuck as u8,
            position: threads[stuck].position as u8,
            object: operation.map_or(255, |op| object::number(op.object()) as u8),
            ..Answer::of(2)
        })
    }
}

impl Machine for Run {
    fn restart(&mut self) {
        self.asked = false;
        self.frozen = false;
        control::enter(self.ground);
        let ground = self.ground_mut();
        ground.control.restart();
        ground.execution.restart(ground.table.threads.len());
        ground.handles.clear();
        for index in 0..self.ground().table.objects.len() {
            // The eight files reach the execution by themselves.
            let made = make(&self.ground().table, index);
            self.ground_mut().handles.push(made);
        }
    }

    fn allowed(&self) -> u8 {
        if self.asked {
            return 0b11;
        }
        let threads = self.ground().execution.threads.all().iter();
        threads.rev().fold(0, |mask, thread| mask << 1 | thread.is_runnable() as u8)
    }

    fn decide(&mut self, decision: u8) -> Step {
        if self.asked {
            if decision > 1 {
                return Step::Refused;
            }
            self.asked = false;
            self.frozen = false;
            return self.go_on(decision == 1);
        }
        let thread = decision as usize;
        let threads = self.ground().execution.threads.all();
        if !threads.get(thread).is_some_and(|thread| thread.is_runnable()) {
            return Step::Refused;
        }
        self.show();
        let full = self.no_room(thread);
        if full {
            let ground = self.ground();
            let position = ground.execution.threads.all()[thread].position;
            return Step::Verdict(Answer {
                thread: decision,
                position: position as u8,
                object: ground.table.threads[thread][position].object,
                ..Answer::of(5)
            });
        }
        self.begin_turn(thread);
        self.go_on(false)
    }

    fn sheet(&self, out: &mut Vec<u8>) {
        let ground = self.ground();
        if self.frozen {
            out.clone_from(&ground.shown);
        } else {
            sheet::write(ground, &ground.execution, out);
        }
    }
}

impl Drop for Run {
    fn drop(&mut self) {
        // SAFETY: made by `Box::into_raw`, and no thread runs any more.
        drop(unsafe { Box::from_raw(self.ground) });
    }
}

fn make(table: &Table, index: usize) -> Handle {
    let object = &table.objects[index];
    let here = Location::disabled();
    match object.kind {
        0x10 => Handle::Mutex(Mutex::new(object.seq_cst)),
        0x11 => Handle::RwLock(RwLock::new()),
        0x12 => Handle::Condvar(Condvar::new()),
        0x13 => Handle::Notify(Notify::new(object.seq_cst, object.spurious)),
        0x14 => Handle::Channel(Channel::new(here)),
        0x15 => Handle::Arc(Arc::new(here)),
        _ => Handle::Cell(Cell::new(here)),
    }
}

/// object.rs's own check; its panic names the first object that leaks.
fn leak_check(objects: &object::Store) -> Answer {
    match catch_unwind(AssertUnwindSafe(|| objects.check_for_leaks())) {
        Ok(()) => Answer::of(0),
        Err(payload) => {
            let text = payload.downcast_ref::<String>().expect("a leak's message");
            Answer { object: leaking_object(text), ..Answer::of(3) }
        }
    }
}

fn leaking_object(message: &str) -> u8 {
    let (_, tail) = message.split_once("Index: ").expect("a leak names its index");
    let digits: String = tail.chars().take_while(char::is_ascii_digit).collect();
    digits.parse().expect("an index of one object of the table")
}

/// Loom's panics are verdicts and say nothing. A panic from anywhere else is a
/// fault of the ground: it must not pass for a verdict.
fn quiet_panics() {
    std::panic::set_hook(Box::new(|info| {
        let from_loom =
            info.location().is_some_and(|place| place.file().starts_with(env!("LOOM_RT")));
        if !from_loom {
            eprintln!("the oracle itself failed: {info}");
            std::process::abort();
        }
    }));
}

// ===== a thread's side =====

/// All operations of the active thread, on its own stack.
pub(super) fn live() {
    let ground = control::ground();
    let thread = super::execution(|execution| usize::from(execution.threads.active_id()));
    // SAFETY: table and handles stay as they are while a run is under way.
    let (operations, handles) =
        unsafe { (&(&(*ground).table.threads)[thread], &(*ground).handles) };
    for (index, operation) in operations.iter().enumerate() {
        if may_fail_or_ask(operation) {
            show_now(ground);
        }
        let answer = perform(operation, handles);
        super::execution(|execution| {
            let active = execution.threads.active_mut();
            active.position = index + 1;
            active.last_answer = answer.unwrap_or(active.last_answer);
        });
    }
    super::execution(|execution| execution.threads.active_mut().set_ended());
}

/// Operations that can fail or ask in the middle of a turn.
fn may_fail_or_ask(operation: &Operation) -> bool {
    matches!(operation.kind, 0x37 | 0x3D | 0x44..=0x47)
}

fn show_now(ground: *mut Ground) {
    // SAFETY: this is the only side that runs, and it holds no other
    // reference to the ground's parts but those to table and handles.
    unsafe {
        let mut shown = std::mem::take(&mut (*ground).shown);
        sheet::write(&*ground, &(*ground).execution, &mut shown);
        (*ground).shown = shown;
    }
}

/// One operation; `Some` is what it leaves as the last answer.
fn perform(operation: &Operation, handles: &[Handle]) -> Option<u8> {
    let here = Location::disabled();
    let object = &handles[operation.object as usize];
    match (operation.kind, object) {
        (0x30, Handle::Mutex(of)) => of.acquire_lock(here),
        (0x31, Handle::Mutex(of)) => return Some(of.try_acquire_lock(here) as u8),
        (0x32, Handle::Mutex(of)) => of.release_lock(),
        (0x33, Handle::RwLock(of)) => of.acquire_read_lock(here),
        (0x34, Handle::RwLock(of)) => of.acquire_write_lock(here),
        (0x35, Handle::RwLock(of)) => return Some(of.try_acquire_read_lock(here) as u8),
        (0x36, Handle::RwLock(of)) => return Some(of.try_acquire_write_lock(here) as u8),
        (0x37, Handle::RwLock(of)) => of.release_read_lock(),
        (0x38, Handle::RwLock(of)) => of.release_write_lock(),
        (0x39, Handle::Condvar(of)) => match &handles[operation.mutex as usize] {
            Handle::Mutex(mutex) => of.wait(mutex, here),
            _ => unreachable!("the table was read"),
        },
        (0x3A, Handle::Condvar(of)) => of.notify_one(here),
        (0x3B, Handle::Condvar(of)) => of.notify_all(here),
        (0x3C, Handle::Notify(of)) => of.notify(here),
        (0x3D, Handle::Notify(of)) => of.wait(here),
        (0x3E, Handle::Channel(of)) => of.send(here),
        (0x3F, Handle::Channel(of)) => of.recv(here),
        (0x40, Handle::Arc(of)) => of.ref_inc(here),
        (0x41, Handle::Arc(of)) => return Some(of.ref_dec(here) as u8),
        (0x42, Handle::Arc(of)) => return Some(of.get_mut(here) as u8),
        (0x43, Handle::Arc(of)) => return Some(of.strong_count() as u8),
        (0x44, Handle::Cell(of)) => cell::begin_read(of, here),
        (0x45, Handle::Cell(of)) => cell::end_read(of),
        (0x46, Handle::Cell(of)) => cell::begin_write(of, here),
        (0x47, Handle::Cell(of)) => cell::end_write(of),
        _ => unreachable!("the table was read"),
    }
    None
}
