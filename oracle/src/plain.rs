//! A plain interpreter, written from the paper alone: no loom file, no stack
//! switching, nothing shared with the oracle but the form of an answer. It
//! tests everything that can fail before it changes anything.
//!
//! A `Slip` switches one known mistake on, to show that a comparison with the
//! oracle notices it.

use crate::answer::{Answer, Machine, Step};

type Clock = [u8; 6];

/// One mistake each. `None` is the interpreter as meant.
#[derive(Clone, Copy, Debug, PartialEq, Eq)]
pub enum Slip {
    None,
    OwnCountOnly,
    TriesNotBlocked,
    ReadersCounted,
    SpuriousClearsNotified,
    UnparkJoinsNothing,
    NewestWaiterFirst,
    SendAlwaysWakes,
    RecvLoadsNewest,
    WakeKeepsStoredUnpark,
    RetakeNamesCondvar,
    LimitBeforeForm,
    LeaksFromTheEnd,
    ActiveUnparkStored,
    MessageIsSendersClock,
    FailedTryLoads,
    GetMutCountsAsInspect,
    EndsNotChecked,
    OwnCountAfterCheck,
    QuestionOnlyIfNotified,
    UnparkedLeavesPhaseTwo,
    LastReaderWakesNobody,
    SurplusIgnored,
    SheetBehindList,
    HighestAhead,
    FailingRaisesOwnCount,
    FailingLeavesDependence,
    NextSaysNone,
    NextRepeats,
}

pub const SLIPS: [Slip; 28] = [
    Slip::OwnCountOnly,
    Slip::TriesNotBlocked,
    Slip::ReadersCounted,
    Slip::SpuriousClearsNotified,
    Slip::UnparkJoinsNothing,
    Slip::NewestWaiterFirst,
    Slip::SendAlwaysWakes,
    Slip::RecvLoadsNewest,
    Slip::WakeKeepsStoredUnpark,
    Slip::RetakeNamesCondvar,
    Slip::LimitBeforeForm,
    Slip::LeaksFromTheEnd,
    Slip::ActiveUnparkStored,
    Slip::MessageIsSendersClock,
    Slip::FailedTryLoads,
    Slip::GetMutCountsAsInspect,
    Slip::EndsNotChecked,
    Slip::OwnCountAfterCheck,
    Slip::QuestionOnlyIfNotified,
    Slip::UnparkedLeavesPhaseTwo,
    Slip::LastReaderWakesNobody,
    Slip::SurplusIgnored,
    Slip::SheetBehindList,
    Slip::HighestAhead,
    Slip::FailingRaisesOwnCount,
    Slip::FailingLeavesDependence,
    Slip::NextSaysNone,
    Slip::NextRepeats,
];

// Thread states and phases, as the sheet writes them.
const RUNNABLE: u8 = 0;
const UNPARKED: u8 = 1;
const BLOCKED: u8 = 2;
const ENDED: u8 = 3;
const NOTHING: u8 = 0;
const ANNOUNCED: u8 = 1;
const PARKED: u8 = 2;
const RETAKING: u8 = 3;

#[derive(Clone, Debug)]
struct Thread {
    state: u8,
    position: usize,
    phase: u8,
    last: u8,
    clock: Clock,
    dependence: Clock,
}

#[derive(Clone, Debug)]
enum Lock {
    Free,
    Read(Vec<usize>),
    Write(usize),
}

#[derive(Clone, Debug)]
enum Body {
    Mutex { holder: Option<usize>, clock: Clock },
    RwLock { lock: Lock, clock: Clock },
    Condvar { waiters: Vec<usize> },
    Notify { spurious: bool, notified: bool, did_spur: bool, clock: Clock },
    Channel { sender: Clock, messages: Vec<Clock> },
    Arc { count: usize, clock: Clock },
    Cell { reading: usize, writing: bool, read: Clock, write: Clock },
}

/// The dependence clocks of the last accesses, by what later ones look for.
#[derive(Clone, Debug, Default)]
struct Accesses {
    any: Option<Clock>,
    send: Option<Clock>,
    recv: Option<Clock>,
    ref_dec: Option<Clock>,
    inspect: Option<Clock>,
    modification: Option<Clock>,
}

#[derive(Clone, Debug)]
struct Object {
    body: Body,
    accesses: Accesses,
}

/// An operation: kind, object, and 39's mutex.
type Operation = (u8, usize, usize);

#[derive(Clone, Debug)]
pub struct World {
    program: std::rc::Rc<Vec<Vec<Operation>>>,
    threads: Vec<Thread>,
    objects: Vec<Object>,
    asked: Option<usize>,
    slip: Slip,
}

fn join(into: &mut Clock, from: &Clock) {
    for place in 0..6 {
        if from[place] > into[place] {
            into[place] = from[place];
        }
    }
}

// ===== the table =====

fn is_object(kind: u8) -> bool {
    (0x10..=0x16).contains(&kind)
}

fn is_operation(kind: u8) -> bool {
    (0x30..=0x47).contains(&kind)
}

fn length_of_body(kind: u8) -> usize {
    match kind {
        0x13 | 0x39 => 2,
        0x11 | 0x12 | 0x14 | 0x15 | 0x16 | 0x20 => 0,
        _ => 1,
    }
}

/// Which object kind an operation kind belongs to.
fn home(kind: u8) -> u8 {
    let firsts =
        [(0x44, 0x16), (0x40, 0x15), (0x3E, 0x14), (0x3C, 0x13), (0x39, 0x12), (0x33, 0x11)];
    let found = firsts.iter().find(|(first, _)| kind >= *first);
    found.map_or(0x10, |(_, object)| *object)
}

fn new_object(kind: u8, body: &[u8]) -> Object {
    let clock = [0; 6];
    let body = match kind {
        0x10 => Body::Mutex { holder: None, clock },
        0x11 => Body::RwLock { lock: Lock::Free, clock },
        0x12 => Body::Condvar { waiters: Vec::new() },
        0x13 => Body::Notify { spurious: body[1] == 1, notified: false, did_spur: false, clock },
        0x14 => Body::Channel { sender: clock, messages: Vec::new() },
        0x15 => Body::Arc { count: 1, clock },
        _ => Body::Cell { reading: 0, writing: false, read: clock, write: clock },
    };
    Object { body, accesses: Accesses::default() }
}

/// The world at a table's beginning, or the refusal.
pub fn read(bytes: &[u8], slip: Slip) -> Result<World, Answer> {
    let mut kinds: Vec<u8> = Vec::new();
    let mut objects: Vec<Object> = Vec::new();
    let mut program: Vec<Vec<Operation>> = Vec::new();
    let mut at = 0;
    while at < bytes.len() {
        let kind = bytes[at];
        let end = at + 1 + length_of_body(kind);
        let known = is_object(kind) || kind == 0x20 || is_operation(kind);
        let whole = known && end <= bytes.len();
        let body = if whole { &bytes[at + 1..end] } else { &[] };

        let bad_form = !whole
            || is_object(kind) && body.iter().any(|&flag| flag > 1)
            || is_object(kind) && !program.is_empty()
            || is_operation(kind) && program.is_empty();
        let over_limit = is_object(kind) && objects.len() >= 16
            || kind == 0x20 && program.len() >= 6
            || is_operation(kind) && program.last().is_some_and(|own| own.len() >= 32);
        if slip == Slip::LimitBeforeForm && over_limit {
            return Err(Answer::at(21, at));
        }
        if bad_form {
            return Err(Answer::at(20, at));
        }
        if over_limit {
            return Err(Answer::at(21, at));
        }

        if is_object(kind) {
            kinds.push(kind);
            objects.push(new_object(kind, body));
        } else if kind == 0x20 {
            program.push(Vec::new());
        } else {
            let object = body[0] as usize;
            if kinds.get(object) != Some(&home(kind)) {
                return Err(Answer::at(22, at));
            }
            let mutex = if kind == 0x39 { body[1] as usize } else { 0 };
            if kind == 0x39 && kinds.get(mutex) != Some(&0x10) {
                return Err(Answer::at(22, at));
            }
            program.last_mut().unwrap().push((kind, object, mutex));
        }
        at = end;
    }
    if program.is_empty() {
        return Err(Answer::at(21, bytes.len()));
    }
    let new = Thread {
        state: RUNNABLE,
        position: 0,
        phase: NOTHING,
        last: 0,
        clock: [0; 6],
        dependence: [0; 6],
    };
    Ok(World {
        threads: vec![new; program.len()],
        program: std::rc::Rc::new(program),
        objects,
        asked: None,
        slip,
    })
}

// ===== the sheet =====

impl World {
    pub fn sheet_bytes(&self) -> Vec<u8> {
        let mut out = Vec::new();
        for t in &self.threads {
            out.extend([0x80, t.state, t.position as u8, t.phase, t.last]);
            out.extend(t.clock);
            out.extend(t.dependence);
        }
        for object in &self.objects {
            object.record(&mut out);
        }
        out
    }
}

impl Object {
    fn record(&self, out: &mut Vec<u8>) {
        match &self.body {
            Body::Mutex { holder, clock } => {
                out.extend([0x90, holder.map_or(0xFF, |t| t as u8)]);
                out.extend(clock);
            }
            Body::RwLock { lock, clock } => {
                let (form, who) = match lock {
                    Lock::Free => (0, 0),
                    Lock::Read(readers) => (1, readers.iter().fold(0u8, |mask, t| mask | 1 << t)),
                    Lock::Write(writer) => (2, *writer as u8),
                };
                out.extend([0x91, form, who]);
                out.extend(clock);
            }
            Body::Condvar { waiters } => {
                out.extend([0x92, waiters.len() as u8]);
                for place in 0..8 {
                    out.push(waiters.get(place).map_or(0xFF, |t| *t as u8));
                }
            }
            Body::Notify { notified, did_spur, clock, .. } => {
                out.extend([0x93, *notified as u8, *did_spur as u8]);
                out.extend(clock);
            }
            Body::Channel { sender, messages } => {
                out.extend([0x94, messages.len() as u8]);
                out.extend(sender);
                for place in 0..16 {
                    out.extend(messages.get(place).unwrap_or(&[0; 6]));
                }
            }
            Body::Arc { count, clock } => {
                out.extend([0x95, *count as u8]);
                out.extend(clock);
            }
            Body::Cell { reading, writing, read, write } => {
                out.extend([0x96, *reading as u8, *writing as u8]);
                out.extend(read);
                out.extend(write);
            }
        }
    }
}

// ===== threads =====

impl World {
    fn slipped(&self, slip: Slip) -> bool {
        self.slip == slip
    }

    fn is_runnable(&self, t: usize) -> bool {
        self.threads[t].state <= UNPARKED
    }

    fn set_runnable(&mut self, t: usize) {
        if self.slipped(Slip::WakeKeepsStoredUnpark) && self.threads[t].state == UNPARKED {
            return;
        }
        self.threads[t].state = RUNNABLE;
    }

    fn set_blocked(&mut self, t: usize) {
        self.threads[t].state = BLOCKED;
    }

    fn unpark(&mut self, active: usize, target: usize) {
        if active == target {
            if self.slipped(Slip::ActiveUnparkStored) {
                self.threads[target].state = UNPARKED;
            }
            return;
        }
        if !self.slipped(Slip::UnparkJoinsNothing) {
            let clock = self.threads[active].clock;
            join(&mut self.threads[target].clock, &clock);
        }
        let thread = &mut self.threads[target];
        match thread.state {
            BLOCKED => thread.state = RUNNABLE,
            RUNNABLE => thread.state = UNPARKED,
            _ => {}
        }
        if self.slipped(Slip::UnparkedLeavesPhaseTwo) && self.threads[target].phase == PARKED {
            self.threads[target].phase = RETAKING;
        }
    }

    /// The operation that a thread stands before.
    fn operation(&self, t: usize) -> Option<Operation> {
        self.program[t].get(self.threads[t].position).copied()
    }

    /// What a thread has announced: the kind as which it counts, and the object.
    fn announced(&self, t: usize) -> Option<(u8, usize)> {
        let (kind, object, mutex) = self.operation(t)?;
        match self.threads[t].phase {
            ANNOUNCED => Some((kind, object)),
            RETAKING => Some((0x30, mutex)),
            _ => None,
        }
    }

    /// The others announced on an object, with the kind of each.
    fn others_on(&self, active: usize, object: usize) -> Vec<(usize, u8)> {
        let mut found = Vec::new();
        for t in 0..self.threads.len() {
            if let Some((kind, announced_on)) = self.announced(t) {
                if t != active && announced_on == object {
                    found.push((t, kind));
                }
            }
        }
        found
    }

    fn wake_others(&mut self, active: usize, object: usize) {
        for (t, _) in self.others_on(active, object) {
            self.set_runnable(t);
        }
    }

    fn block_others(&mut self, active: usize, object: usize, which: fn(u8) -> bool) {
        for (t, kind) in self.others_on(active, object) {
            let is_try = matches!(kind, 0x31 | 0x35 | 0x36);
            if self.slipped(Slip::TriesNotBlocked) && is_try {
                continue;
            }
            if which(kind) {
                self.set_blocked(t);
            }
        }
    }
}

// ===== clocks between threads and objects =====

impl World {
    fn load(&mut self, t: usize, from: Clock) {
        join(&mut self.threads[t].clock, &from);
    }

    fn object_clock(&mut self, object: usize) -> &mut Clock {
        match &mut self.objects[object].body {
            Body::Mutex { clock, .. }
            | Body::RwLock { clock, .. }
            | Body::Notify { clock, .. }
            | Body::Channel { sender: clock, .. }
            | Body::Arc { clock, .. } => clock,
            Body::Condvar { .. } | Body::Cell { .. } => unreachable!("has no clock of this sort"),
        }
    }

    fn store(&mut self, t: usize, object: usize) {
        let clock = self.threads[t].clock;
        join(self.object_clock(object), &clock);
    }

    fn load_object(&mut self, t: usize, object: usize) {
        let clock = *self.object_clock(object);
        self.load(t, clock);
    }

    /// The dependence step of a turn that begins with an announced operation.
    fn depend(&mut self, t: usize, kind: u8, object: usize) {
        let kind = match kind {
            0x42 if self.slipped(Slip::GetMutCountsAsInspect) => 0x43,
            kind => kind,
        };
        let accesses = &mut self.objects[object].accesses;
        let last = match kind {
            0x3E => accesses.send,
            0x3F => accesses.recv,
            0x40 => accesses.inspect,
            0x41 | 0x42 => accesses.ref_dec,
            0x43 => accesses.modification,
            _ => accesses.any,
        };
        let own = &mut self.threads[t].dependence;
        if let Some(last) = last {
            join(own, &last);
        }
        own[t] += 1;
        let recorded = Some(*own);
        match kind {
            0x3E => accesses.send = recorded,
            0x3F => accesses.recv = recorded,
            0x40 => accesses.modification = recorded,
            0x41 | 0x42 => {
                accesses.ref_dec = recorded;
                accesses.modification = recorded;
            }
            0x43 => accesses.inspect = recorded,
            _ => accesses.any = recorded,
        }
    }
}

// ===== announcing =====

impl World {
    /// Whether an operation cannot take effect now.
    fn is_barred(&self, kind: u8, object: usize) -> bool {
        match (kind, &self.objects[object].body) {
            (0x30, Body::Mutex { holder, .. }) => holder.is_some(),
            (0x33, Body::RwLock { lock, .. }) => matches!(lock, Lock::Write(_)),
            (0x34, Body::RwLock { lock, .. }) => !matches!(lock, Lock::Free),
            (0x3D, Body::Notify { notified, .. }) => !notified,
            (0x3F, Body::Channel { messages, .. }) => messages.is_empty(),
            _ => false,
        }
    }

    fn announce(&mut self, t: usize, phase: u8) {
        self.threads[t].phase = phase;
        let (kind, object) = self.announced(t).expect("phase 1 or 3 announces");
        if self.is_barred(kind, object) {
            self.set_blocked(t);
        }
    }

    /// The failure that an announced operation meets at its effect, if any.
    fn failing(&self, kind: u8, object: usize) -> Option<u8> {
        if self.is_barred(kind, object) {
            return Some(4);
        }
        match (kind, &self.objects[object].body) {
            (0x41..=0x43, Body::Arc { count: 0, .. }) => Some(4),
            (0x39, Body::Condvar { waiters }) if waiters.len() >= 8 => Some(5),
            (0x3E, Body::Channel { messages, .. }) if messages.len() >= 16 => Some(5),
            _ => None,
        }
    }
}

// ===== effects of announced operations =====

/// What the effect of an announced operation means for its turn.
enum Effect {
    /// Done; the last answer is kept.
    Kept,
    /// Done, and this is the last answer.
    Left(u8),
    /// The turn is over inside a condvar wait.
    Over,
}

impl World {
    fn effect(&mut self, t: usize, kind: u8, object: usize) -> Effect {
        match kind {
            0x30 => {
                self.take_mutex(t, object);
                Effect::Kept
            }
            0x31 => Effect::Left(self.take_mutex(t, object) as u8),
            0x33 => {
                self.take_read(t, object);
                Effect::Kept
            }
            0x34 => {
                self.take_write(t, object);
                Effect::Kept
            }
            0x35 => Effect::Left(self.take_read(t, object) as u8),
            0x36 => Effect::Left(self.take_write(t, object) as u8),
            0x39 => self.condvar_wait(t, object),
            0x3A => {
                self.notify_waiters(t, object, false);
                Effect::Kept
            }
            0x3B => {
                self.notify_waiters(t, object, true);
                Effect::Kept
            }
            0x3C => {
                self.notify(t, object);
                Effect::Kept
            }
            0x3D => {
                self.load_object(t, object);
                if let Body::Notify { notified, .. } = &mut self.objects[object].body {
                    *notified = false;
                }
                Effect::Kept
            }
            0x3E => {
                self.send(t, object);
                Effect::Kept
            }
            0x3F => {
                self.recv(t, object);
                Effect::Kept
            }
            _ => self.arc_effect(t, kind, object),
        }
    }

    fn take_mutex(&mut self, t: usize, object: usize) -> bool {
        let Body::Mutex { holder, .. } = &mut self.objects[object].body else {
            unreachable!("the table was read");
        };
        if holder.is_some() {
            if self.slipped(Slip::FailedTryLoads) {
                self.load_object(t, object);
            }
            return false;
        }
        *holder = Some(t);
        self.load_object(t, object);
        self.block_others(t, object, |_| true);
        true
    }

    fn take_read(&mut self, t: usize, object: usize) -> bool {
        let counted = self.slipped(Slip::ReadersCounted);
        let Body::RwLock { lock, .. } = &mut self.objects[object].body else {
            unreachable!("the table was read");
        };
        match lock {
            Lock::Write(_) => return false,
            Lock::Free => *lock = Lock::Read(vec![t]),
            Lock::Read(readers) => {
                if counted || !readers.contains(&t) {
                    readers.push(t);
                }
            }
        }
        self.load_object(t, object);
        self.block_others(t, object, |kind| matches!(kind, 0x34 | 0x36));
        true
    }

    fn take_write(&mut self, t: usize, object: usize) -> bool {
        let Body::RwLock { lock, .. } = &mut self.objects[object].body else {
            unreachable!("the table was read");
        };
        if !matches!(lock, Lock::Free) {
            return false;
        }
        *lock = Lock::Write(t);
        self.load_object(t, object);
        self.block_others(t, object, |_| true);
        true
    }

    fn condvar_wait(&mut self, t: usize, object: usize) -> Effect {
        let (_, _, mutex) = self.operation(t).expect("a wait is under way");
        if let Body::Condvar { waiters } = &mut self.objects[object].body {
            waiters.push(t);
        }
        self.release_mutex(t, mutex);
        if self.threads[t].state == UNPARKED {
            self.threads[t].state = RUNNABLE;
            self.announce(t, RETAKING);
        } else {
            self.set_blocked(t);
            self.threads[t].phase = PARKED;
        }
        Effect::Over
    }

    fn notify_waiters(&mut self, t: usize, object: usize, all: bool) {
        let newest_first = self.slipped(Slip::NewestWaiterFirst);
        let Body::Condvar { waiters } = &mut self.objects[object].body else {
            unreachable!("the table was read");
        };
        let count = if all { waiters.len() } else { waiters.len().min(1) };
        let woken: Vec<usize> = if newest_first {
            (0..count).map(|_| waiters.pop().unwrap()).collect()
        } else {
            waiters.drain(..count).collect()
        };
        for waiter in woken {
            self.unpark(t, waiter);
        }
    }

    fn notify(&mut self, t: usize, object: usize) {
        self.store(t, object);
        if let Body::Notify { notified, .. } = &mut self.objects[object].body {
            *notified = true;
        }
        for (other, _) in self.others_on(t, object) {
            self.unpark(t, other);
        }
    }

    fn send(&mut self, t: usize, object: usize) {
        self.store(t, object);
        let own = self.threads[t].clock;
        let senders = self.slipped(Slip::MessageIsSendersClock);
        let Body::Channel { sender, messages } = &mut self.objects[object].body else {
            unreachable!("the table was read");
        };
        messages.push(if senders { own } else { *sender });
        if messages.len() == 1 || self.slip == Slip::SendAlwaysWakes {
            self.wake_others(t, object);
        }
    }

    fn recv(&mut self, t: usize, object: usize) {
        let newest = self.slipped(Slip::RecvLoadsNewest);
        let Body::Channel { messages, .. } = &mut self.objects[object].body else {
            unreachable!("the table was read");
        };
        let message = if newest { messages.pop().unwrap() } else { messages.remove(0) };
        let empty = messages.is_empty();
        self.load(t, message);
        if empty {
            self.block_others(t, object, |kind| kind == 0x3F);
        }
    }

    fn arc_effect(&mut self, t: usize, kind: u8, object: usize) -> Effect {
        let Body::Arc { count, .. } = &mut self.objects[object].body else {
            unreachable!("the table was read");
        };
        match kind {
            0x40 => {
                *count += 1;
                Effect::Kept
            }
            0x41 => {
                *count -= 1;
                let now = *count;
                self.store(t, object);
                if now == 0 {
                    self.load_object(t, object);
                }
                Effect::Left((now == 0) as u8)
            }
            _ => {
                let now = *count;
                self.load_object(t, object);
                Effect::Left(if kind == 0x42 { (now == 1) as u8 } else { now as u8 })
            }
        }
    }
}

// ===== operations that need no announcement =====

/// A failure: its number, and who is ahead in a race.
type Failure = (u8, u8);
const MISUSE: Failure = (4, 255);

impl World {
    fn release_mutex(&mut self, t: usize, object: usize) {
        if let Body::Mutex { holder, .. } = &mut self.objects[object].body {
            *holder = None;
        }
        self.store(t, object);
        self.wake_others(t, object);
    }

    fn release_write(&mut self, t: usize, object: usize) {
        if let Body::RwLock { lock, .. } = &mut self.objects[object].body {
            *lock = Lock::Free;
        }
        self.store(t, object);
        self.wake_others(t, object);
    }

    fn release_read(&mut self, t: usize, object: usize) -> Result<(), Failure> {
        let counted = self.slipped(Slip::ReadersCounted);
        let Body::RwLock { lock, .. } = &mut self.objects[object].body else {
            unreachable!("the table was read");
        };
        let Lock::Read(readers) = lock else {
            return Err(MISUSE);
        };
        if counted {
            if let Some(place) = readers.iter().position(|reader| *reader == t) {
                readers.remove(place);
            }
        } else {
            readers.retain(|reader| *reader != t);
        }
        let last_out = readers.is_empty();
        if last_out {
            *lock = Lock::Free;
        }
        self.store(t, object);
        if last_out && !self.slipped(Slip::LastReaderWakesNobody) {
            self.wake_others(t, object);
        }
        Ok(())
    }

    /// Whoever of `past` is ahead of `now`: the lowest.
    fn ahead(&self, t: usize, now: &Clock, past: &Clock) -> Option<u8> {
        let mut places = (0..6).filter(|&place| now[place] < past[place]);
        let found = match self.slip {
            Slip::OwnCountOnly => places.find(|&place| place == t),
            Slip::HighestAhead => places.next_back(),
            _ => places.next(),
        };
        found.map(|place| place as u8)
    }

    /// 44 to 47.
    fn cell_step(&mut self, t: usize, kind: u8, object: usize) -> Result<(), Failure> {
        let Body::Cell { reading, writing, read, write } = &self.objects[object].body else {
            unreachable!("the table was read");
        };
        let (reading, writing, read, write) = (*reading, *writing, *read, *write);
        let fits = match kind {
            0x44 => !writing,
            0x46 => reading == 0 && !writing,
            0x45 => reading > 0 && !writing,
            _ => writing && reading == 0,
        };
        if !fits {
            return Err(MISUSE);
        }
        let starts = matches!(kind, 0x44 | 0x46);
        let writes = matches!(kind, 0x46 | 0x47);
        let mut now = self.threads[t].clock;
        if starts && !self.slipped(Slip::OwnCountAfterCheck) {
            now[t] += 1;
        }
        if self.slipped(Slip::FailingRaisesOwnCount) {
            self.threads[t].clock = now;
        }
        let unchecked = self.slipped(Slip::EndsNotChecked) && !starts;
        if let Some(other) = self.ahead(t, &now, &write).filter(|_| !unchecked) {
            return Err((1, other));
        }
        if let Some(other) = self.ahead(t, &now, &read).filter(|_| writes && !unchecked) {
            return Err((1, other));
        }
        self.commit_cell_step(t, kind, object, now);
        if starts && self.slipped(Slip::OwnCountAfterCheck) {
            self.threads[t].clock[t] += 1;
        }
        Ok(())
    }

    fn commit_cell_step(&mut self, t: usize, kind: u8, object: usize, now: Clock) {
        self.threads[t].clock = now;
        let Body::Cell { reading, writing, read, write } = &mut self.objects[object].body else {
            unreachable!("the table was read");
        };
        match kind {
            0x44 => *reading += 1,
            0x45 => *reading -= 1,
            0x46 => *writing = true,
            _ => *writing = false,
        }
        let joined = if matches!(kind, 0x44 | 0x45) { read } else { write };
        join(joined, &now);
    }
}

// ===== one decision =====

impl World {
    fn wants_question(&self, kind: u8, object: usize) -> bool {
        let Body::Notify { spurious, notified, did_spur, .. } = &self.objects[object].body else {
            return false;
        };
        let asks = !self.slipped(Slip::QuestionOnlyIfNotified) || *notified;
        kind == 0x3D && *spurious && !*did_spur && asks
    }

    fn answer_question(&mut self, t: usize, decision: u8) -> Step {
        self.asked = None;
        if decision == 0 {
            self.announce(t, ANNOUNCED);
            return self.after_turn();
        }
        let (_, object, _) = self.operation(t).expect("a wait is under way");
        let clears = self.slipped(Slip::SpuriousClearsNotified);
        if let Body::Notify { notified, did_spur, .. } = &mut self.objects[object].body {
            *did_spur = true;
            *notified = *notified && !clears;
        }
        self.threads[t].position += 1;
        self.threads[t].state = RUNNABLE;
        self.after_turn()
    }

    pub fn step(&mut self, decision: u8) -> Step {
        if let Some(t) = self.asked {
            return if decision > 1 { Step::Refused } else { self.answer_question(t, decision) };
        }
        let t = decision as usize;
        if t >= self.threads.len() || !self.is_runnable(t) {
            return Step::Refused;
        }
        if self.threads[t].phase == PARKED {
            self.announce(t, RETAKING);
            return self.after_turn();
        }
        if let Some((kind, object)) = self.announced(t) {
            if let Some(number) = self.failing(kind, object) {
                if self.slipped(Slip::FailingLeavesDependence) {
                    self.depend(t, kind, object);
                }
                return self.fail(t, object, (number, 255));
            }
            self.depend(t, kind, object);
            let retaking = self.threads[t].phase == RETAKING;
            self.threads[t].phase = NOTHING;
            match self.effect(t, kind, object) {
                Effect::Over => return self.after_turn(),
                Effect::Left(answer) if !retaking => self.threads[t].last = answer,
                Effect::Left(_) | Effect::Kept => {}
            }
            self.threads[t].position += 1;
        }
        self.go_on(t)
    }

    /// Through what needs no announcement.
    fn go_on(&mut self, t: usize) -> Step {
        while let Some((kind, object, _)) = self.operation(t) {
            let done = match kind {
                0x32 => {
                    self.release_mutex(t, object);
                    Ok(())
                }
                0x37 => self.release_read(t, object),
                0x38 => {
                    self.release_write(t, object);
                    Ok(())
                }
                0x44..=0x47 => self.cell_step(t, kind, object),
                _ if self.wants_question(kind, object) => {
                    self.asked = Some(t);
                    return Step::Wants;
                }
                _ => {
                    self.announce(t, ANNOUNCED);
                    return self.after_turn();
                }
            };
            if let Err(failure) = done {
                return self.fail(t, object, failure);
            }
            self.threads[t].position += 1;
        }
        self.threads[t].state = ENDED;
        self.after_turn()
    }

    fn fail(&self, t: usize, object: usize, (number, other): Failure) -> Step {
        let condvar = self.operation(t).map_or(object, |(_, own, _)| own);
        let named = if self.slipped(Slip::RetakeNamesCondvar) { condvar } else { object };
        Step::Verdict(Answer {
            thread: t as u8,
            position: self.threads[t].position as u8,
            object: named as u8,
            other,
            ..Answer::of(number)
        })
    }

    fn after_turn(&self) -> Step {
        let stuck = (0..self.threads.len()).find(|&t| self.threads[t].state != ENDED);
        let Some(stuck) = stuck else {
            return Step::Verdict(self.leak_check());
        };
        if (0..self.threads.len()).any(|t| self.is_runnable(t)) {
            return Step::Wants;
        }
        Step::Verdict(Answer {
            thread: stuck as u8,
            position: self.threads[stuck].position as u8,
            object: self.announced(stuck).map_or(255, |(_, object)| object as u8),
            ..Answer::of(2)
        })
    }

    fn leak_check(&self) -> Answer {
        let leaks = |object: &usize| match &self.objects[*object].body {
            Body::Arc { count, .. } => *count != 0,
            Body::Channel { messages, .. } => !messages.is_empty(),
            _ => false,
        };
        let mut leaking = (0..self.objects.len()).filter(leaks);
        let found =
            if self.slipped(Slip::LeaksFromTheEnd) { leaking.next_back() } else { leaking.next() };
        match found {
            None => Answer::of(0),
            Some(object) => Answer { object: object as u8, ..Answer::of(3) },
        }
    }

    /// The number that falls with every decision: what is left to decide.
    pub fn falling(&self) -> usize {
        let of = |t: usize| {
            let left = self.program[t].len() - self.threads[t].position;
            let waits = self.operation(t).is_some_and(|(kind, ..)| kind == 0x39);
            match (self.threads[t].state, self.threads[t].phase) {
                (ENDED, _) => 0,
                (_, ANNOUNCED) if waits => 3 * left,
                (_, ANNOUNCED | PARKED) => 3 * left - 1,
                (_, RETAKING) => 3 * left - 2,
                _ if self.asked == Some(t) => 3 * left,
                _ => 3 * left + 1,
            }
        };
        (0..self.threads.len()).map(of).sum()
    }

    pub fn allowed_mask(&self) -> u8 {
        if self.asked.is_some() {
            return 3;
        }
        let mut mask = 0;
        for t in 0..self.threads.len() {
            if self.is_runnable(t) {
                mask |= 1 << t;
            }
        }
        mask
    }
}

// ===== the three calls =====

/// The interpreter with one slip, or none.
#[derive(Clone, Copy)]
pub struct Plain {
    pub slip: Slip,
}

impl Plain {
    pub fn judge(&self, table: &[u8], list: &[u8], sheet_length: usize) -> (Answer, Vec<u8>) {
        let mut world = match read(table, self.slip) {
            Err(refusal) => return (refusal, Vec::new()),
            Ok(world) => world,
        };
        let needed = world.sheet_bytes().len();
        let short = sheet_length < needed;
        if short && self.slip != Slip::SheetBehindList {
            return (Answer::at(25, needed), Vec::new());
        }
        let answer = self.follow(&mut world, list);
        match answer.number {
            0..=6 if short => (Answer::at(25, needed), Vec::new()),
            0..=6 => (answer, world.sheet_bytes()),
            _ => (answer, Vec::new()),
        }
    }

    fn follow(&self, world: &mut World, list: &[u8]) -> Answer {
        let mut at = 0;
        while at < list.len() {
            match world.step(list[at]) {
                Step::Refused => return Answer::at(23, at),
                Step::Wants => at += 1,
                Step::Verdict(answer) => {
                    let surplus = at + 1 < list.len() && self.slip != Slip::SurplusIgnored;
                    return if surplus { Answer::at(24, at + 1) } else { answer };
                }
            }
        }
        Answer::of(6)
    }

    pub fn first(&self, table: &[u8], room: usize) -> (Answer, Vec<u8>) {
        match read(table, self.slip) {
            Err(refusal) => (refusal, Vec::new()),
            Ok(world) => written(completion(world, Vec::new()), room),
        }
    }

    pub fn next(&self, table: &[u8], list: &[u8], room: usize) -> (Answer, Vec<u8>) {
        let mut world = match read(table, self.slip) {
            Err(refusal) => return (refusal, Vec::new()),
            Ok(world) => world,
        };
        // The worlds at which each decision of the list was wanted.
        let mut before = Vec::new();
        for (at, &decision) in list.iter().enumerate() {
            before.push(world.clone());
            match world.step(decision) {
                Step::Refused => return (Answer::at(23, at), Vec::new()),
                Step::Verdict(_) if at + 1 < list.len() => {
                    return (Answer::at(24, at + 1), Vec::new());
                }
                Step::Verdict(_) if self.slip == Slip::NextSaysNone => break,
                Step::Verdict(_) if self.slip == Slip::NextRepeats => {
                    return written(list.to_vec(), room);
                }
                Step::Verdict(_) => return later(before, list, room),
                Step::Wants => {}
            }
        }
        let none = self.slip == Slip::NextSaysNone;
        (Answer::of(if none { 7 } else { 26 }), Vec::new())
    }
}

/// The smallest list above a complete one.
fn later(mut before: Vec<World>, list: &[u8], room: usize) -> (Answer, Vec<u8>) {
    while let Some(world) = before.pop() {
        let at = before.len();
        let larger = (list[at] + 1..8).find(|decision| world.allowed_mask() >> decision & 1 == 1);
        if let Some(decision) = larger {
            let mut front = list[..at].to_vec();
            front.push(decision);
            let mut world = world;
            let found = match world.step(decision) {
                Step::Verdict(_) => front,
                _ => completion(world, front),
            };
            return written(found, room);
        }
    }
    (Answer::of(7), Vec::new())
}

/// Goes on with the smallest decision until a verdict.
fn completion(mut world: World, mut front: Vec<u8>) -> Vec<u8> {
    loop {
        let decision = world.allowed_mask().trailing_zeros() as u8;
        front.push(decision);
        if let Step::Verdict(_) = world.step(decision) {
            return front;
        }
    }
}

fn written(list: Vec<u8>, room: usize) -> (Answer, Vec<u8>) {
    if list.len() > room {
        return (Answer::at(25, list.len()), Vec::new());
    }
    (Answer::at(8, list.len()), list)
}

/// A world that can go back to its beginning.
pub struct PlainRun {
    start: World,
    pub world: World,
}

impl PlainRun {
    pub fn new(world: World) -> PlainRun {
        PlainRun { start: world.clone(), world }
    }
}

impl Machine for PlainRun {
    fn restart(&mut self) {
        self.world = self.start.clone();
    }

    fn allowed(&self) -> u8 {
        self.world.allowed_mask()
    }

    fn decide(&mut self, decision: u8) -> Step {
        self.world.step(decision)
    }

    fn sheet(&self, out: &mut Vec<u8>) {
        *out = self.world.sheet_bytes();
    }
}
