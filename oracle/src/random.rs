//! Random tables and lists, biased so that something happens in them.

use crate::answer::Step;
use crate::plain::World;
use crate::text::Chance;

/// What a random table is about.
#[derive(Clone, Copy, PartialEq)]
enum Theme {
    /// Any objects, few operations.
    Small,
    /// Any objects, up to all limits.
    Large,
    /// Waiters with unparks stored by a Notify: stale entries, a full queue.
    Crowd,
    /// More sends than receives.
    Flood,
    /// Cells between acquire and release, sometimes outside.
    Guarded,
    /// One RwLock, many readers.
    Readers,
    /// Notifies that may wake spuriously.
    Spurious,
    /// One Arc, raised and dropped.
    Shared,
    /// Locks taken and given back, cells used inside: long runs.
    Orderly,
    /// Stale waiters that are blocked in something else.
    Stale,
    /// Waits, each thread with a mutex of its own, and one that notifies.
    Shift,
}

const THEMES: [Theme; 13] = [
    Theme::Shift,
    Theme::Stale,
    Theme::Orderly,
    Theme::Orderly,
    Theme::Orderly,
    Theme::Small,
    Theme::Large,
    Theme::Crowd,
    Theme::Flood,
    Theme::Guarded,
    Theme::Readers,
    Theme::Spurious,
    Theme::Shared,
];

/// The objects that an orderly thread uses by their numbers.
const ORDERLY: [u8; 8] = [0x10, 0x11, 0x12, 0x13, 0x14, 0x15, 0x16, 0x16];

const SAFE: [&[u8]; 14] = [
    &[0x30, 0, 0x46, 6, 0x47, 6, 0x32, 0],
    &[0x30, 0, 0x44, 6, 0x45, 6, 0x32, 0],
    &[0x30, 0, 0x46, 6, 0x47, 6, 0x3C, 3, 0x32, 0],
    &[0x34, 1, 0x46, 7, 0x47, 7, 0x38, 1],
    &[0x33, 1, 0x44, 7, 0x45, 7, 0x37, 1],
    &[0x33, 1, 0x33, 1, 0x37, 1],
    &[0x33, 1, 0x3A, 2, 0x37, 1],
    &[0x40, 5, 0x43, 5, 0x41, 5],
    &[0x40, 5, 0x42, 5, 0x41, 5],
    &[0x3E, 4, 0x3F, 4],
    &[0x3C, 3],
    &[0x3A, 2],
    &[0x3B, 2],
    &[0x30, 0, 0x3B, 2, 0x32, 0],
];

const RISKY: [&[u8]; 14] = [
    &[0x30, 0, 0x39, 2, 0, 0x32, 0],
    &[0x30, 0, 0x46, 6, 0x43, 5, 0x47, 6, 0x32, 0],
    &[0x33, 1, 0x44, 7, 0x43, 5, 0x45, 7, 0x37, 1],
    &[0x31, 0, 0x44, 6, 0x45, 6, 0x32, 0],
    &[0x35, 1, 0x44, 7, 0x45, 7, 0x37, 1],
    &[0x36, 1, 0x46, 7, 0x47, 7, 0x38, 1],
    &[0x44, 6, 0x45, 6],
    &[0x44, 7, 0x45, 7],
    &[0x46, 7, 0x47, 7],
    &[0x3E, 4, 0x3E, 4],
    &[0x3F, 4],
    &[0x3C, 3, 0x3D, 3],
    &[0x41, 5],
    &[0x32, 0],
];

struct Builder<'a> {
    chance: &'a mut Chance,
    /// Orderly threads take a risk once in this many times.
    risk: usize,
    /// Kind of each object.
    kinds: Vec<u8>,
    bytes: Vec<u8>,
}

/// A table that is accepted.
pub fn table(chance: &mut Chance) -> Vec<u8> {
    let theme = chance.pick(&THEMES);
    let risk = chance.pick(&[5, 15, 100, 1000]);
    let mut builder = Builder { chance, risk, kinds: Vec::new(), bytes: Vec::new() };
    builder.objects(theme);
    let threads = builder.thread_count(theme);
    let length = builder.usual_length(theme);
    for number in 0..threads {
        if theme == Theme::Shift {
            builder.shift(number, number + 1 == threads, length);
            continue;
        }
        builder.thread(theme, length);
        // Somebody drops the Arc's first count, or every such run leaks.
        if theme == Theme::Orderly && number == 0 && length < 32 {
            builder.put(&[0x41, 5]);
        }
    }
    builder.bytes
}

impl Builder<'_> {
    fn object(&mut self, kind: u8) {
        self.kinds.push(kind);
        self.bytes.push(kind);
        let flags = match kind {
            0x10 => 1,
            0x13 => 2,
            _ => 0,
        };
        for _ in 0..flags {
            let flag = self.chance.below(2) as u8;
            self.bytes.push(flag);
        }
    }

    fn objects(&mut self, theme: Theme) {
        let fixed: &[u8] = match theme {
            Theme::Crowd => &[0x12, 0x10, 0x13],
            Theme::Flood => &[0x14],
            Theme::Guarded => &[0x10, 0x16],
            Theme::Readers => &[0x11],
            Theme::Spurious => &[0x13],
            Theme::Shared => &[0x15],
            Theme::Orderly => &ORDERLY,
            Theme::Shift => &[0x12, 0x10, 0x10, 0x10, 0x10, 0x10, 0x10],
            Theme::Stale => self.chance.pick(&[
                &[0x12, 0x10, 0x13, 0x11],
                &[0x12, 0x10, 0x13, 0x11],
                &[0x12, 0x10, 0x13, 0x14],
                &[0x12, 0x10, 0x13, 0x13],
                &[0x12, 0x10, 0x13, 0x10],
            ]),
            Theme::Small | Theme::Large => &[],
        };
        fixed.iter().for_each(|kind| self.object(*kind));
        let more = match theme {
            Theme::Small => self.chance.from(1, 3),
            Theme::Large => self.chance.from(1, 16),
            _ => self.chance.below(2),
        };
        for _ in 0..more {
            let kind = self.chance.from(0x10, 0x16) as u8;
            self.object(kind);
        }
        // A condvar without a mutex cannot be waited on.
        let wants_mutex = self.kinds.contains(&0x12) && !self.kinds.contains(&0x10);
        if wants_mutex && self.kinds.len() < 16 && !self.chance.once_in(8) {
            self.object(0x10);
        }
    }

    fn thread_count(&mut self, theme: Theme) -> usize {
        match theme {
            Theme::Small => self.chance.from(1, 3),
            Theme::Crowd => self.chance.from(2, 6),
            Theme::Stale => self.chance.from(2, 4),
            Theme::Shift => self.chance.from(2, 6),
            _ => self.chance.pick(&[1, 2, 2, 3, 3, 4, 5, 6]),
        }
    }

    fn usual_length(&mut self, theme: Theme) -> usize {
        match theme {
            Theme::Small => 3,
            Theme::Large => self.chance.pick(&[8, 16, 32]),
            Theme::Flood | Theme::Shared => self.chance.pick(&[4, 12, 32]),
            Theme::Orderly => self.chance.pick(&[5, 8, 16, 32, 32]),
            Theme::Shift => self.chance.pick(&[2, 4, 32]),
            _ => self.chance.pick(&[3, 6, 10, 32]),
        }
    }

    fn thread(&mut self, theme: Theme, usual: usize) {
        self.bytes.push(0x20);
        let length = if self.chance.once_in(3) { usual } else { self.chance.from(0, usual) };
        let mut left = length;
        while left > 0 {
            left -= match theme {
                Theme::Guarded if left >= 4 && !self.chance.once_in(4) => self.guarded_access(),
                Theme::Crowd if left >= 2 && !self.chance.once_in(4) => self.crowd_pair(),
                Theme::Orderly if left >= 5 => self.orderly_block(),
                Theme::Orderly => return,
                Theme::Stale if left >= 3 => self.stale_block(),
                _ => self.operation(theme),
            };
        }
    }

    fn put(&mut self, operation: &[u8]) {
        self.bytes.extend(operation);
    }

    /// acquire, start, end, release.
    fn guarded_access(&mut self) -> usize {
        let start = self.chance.pick(&[0x44, 0x46]);
        let acquire = self.chance.pick(&[0x30, 0x30, 0x30, 0x31]);
        self.put(&[acquire, 0, start, 1, start + 1, 1, 0x32, 0]);
        4
    }

    /// Something that lets an unpark be stored, then a wait.
    fn crowd_pair(&mut self) -> usize {
        let before: [u8; 2] =
            self.chance.pick(&[[0x3C, 2], [0x3C, 2], [0x30, 1], [0x31, 1], [0x3A, 0], [0x3B, 0]]);
        self.put(&before);
        self.put(&[0x39, 0, 1]);
        2
    }

    /// Operations that belong together. Most keep to the rules; a few risk a
    /// deadlock, a race or a misuse.
    fn orderly_block(&mut self) -> usize {
        let risky = self.chance.once_in(self.risk);
        let block = self.chance.pick(if risky { &RISKY } else { &SAFE });
        self.put(block);
        block.len() / 2
    }

    /// A thread of a shift: it waits all the time, or notifies all the time.
    fn shift(&mut self, number: usize, notifies: bool, length: usize) {
        self.bytes.push(0x20);
        let own = number as u8 + 1;
        for _ in 0..length {
            let strange = self.chance.once_in(self.risk);
            match (notifies, strange) {
                (false, false) => self.put(&[0x39, 0, own]),
                (true, false) => self.put(&[0x3B, 0]),
                (false, true) => self.put(&[0x30, own]),
                (true, true) => self.put(&[0x3A, 0]),
            }
        }
    }

    /// A wait that leaves its entry behind, then something to be blocked in;
    /// or what unparks such a thread.
    fn stale_block(&mut self) -> usize {
        let choices: &[u8] = match self.kinds[3] {
            0x11 => &[0x33, 0x34, 0x34, 0x35, 0x36, 0x38],
            0x13 => &[0x3C, 0x3D, 0x3D],
            0x14 => &[0x3E, 0x3F, 0x3F],
            _ => &[0x30, 0x31, 0x32],
        };
        let then = [self.chance.pick(choices), 3];
        let wakes = self.chance.pick(&[[0x3C, 2], [0x3A, 0], [0x3B, 0], [0x32, 1]]);
        match self.chance.below(4) {
            0 | 1 => {
                self.put(&[0x3C, 2, 0x39, 0, 1]);
                self.put(&then);
                3
            }
            2 => {
                self.put(&then);
                1
            }
            _ => {
                self.put(&wakes);
                1
            }
        }
    }

    fn operation(&mut self, theme: Theme) -> usize {
        if self.kinds.is_empty() {
            return 1;
        }
        let object = match theme {
            Theme::Small | Theme::Large => self.chance.below(self.kinds.len()),
            _ if self.chance.once_in(4) => self.chance.below(self.kinds.len()),
            Theme::Crowd => self.chance.below(3),
            Theme::Stale => self.chance.below(4),
            Theme::Guarded => self.chance.below(2),
            _ => 0,
        };
        let kind = self.kind_of_operation(theme, self.kinds[object]);
        match kind {
            0x39 => {
                let Some(mutex) = self.some_mutex() else {
                    self.put(&[0x3A, object as u8]);
                    return 1;
                };
                self.put(&[0x39, object as u8, mutex]);
            }
            kind => self.put(&[kind, object as u8]),
        }
        1
    }

    fn some_mutex(&mut self) -> Option<u8> {
        let mutexes: Vec<u8> =
            (0..self.kinds.len() as u8).filter(|n| self.kinds[*n as usize] == 0x10).collect();
        (!mutexes.is_empty()).then(|| self.chance.pick(&mutexes))
    }

    fn kind_of_operation(&mut self, theme: Theme, object: u8) -> u8 {
        let weights: &[u8] = match (object, theme) {
            (0x10, _) => &[0x30, 0x31, 0x32, 0x32],
            (0x11, Theme::Readers) => &[0x33, 0x33, 0x35, 0x37, 0x37, 0x34, 0x36, 0x38],
            (0x11, _) => &[0x33, 0x34, 0x35, 0x36, 0x37, 0x38, 0x37, 0x38],
            (0x12, _) => &[0x39, 0x39, 0x3A, 0x3B],
            (0x13, _) => &[0x3C, 0x3D],
            (0x14, Theme::Flood) => &[0x3E, 0x3E, 0x3E, 0x3E, 0x3F],
            (0x14, _) => &[0x3E, 0x3F],
            (0x15, _) => &[0x40, 0x40, 0x41, 0x42, 0x43],
            _ => &[0x44, 0x45, 0x46, 0x47],
        };
        self.chance.pick(weights)
    }
}

/// How a list picks among the allowed decisions.
#[derive(Clone, Copy)]
enum Habit {
    Any,
    /// Stays with a thread while it can.
    Sticky,
    /// The next allowed after the last one.
    Round,
    Smallest,
    Largest,
}

/// A complete list of the table that `start` stands at the beginning of.
pub fn list(chance: &mut Chance, start: &World) -> Vec<u8> {
    let habit = chance.pick(&[
        Habit::Any,
        Habit::Any,
        Habit::Any,
        Habit::Sticky,
        Habit::Round,
        Habit::Smallest,
        Habit::Largest,
    ]);
    let mut world = start.clone();
    let mut decisions: Vec<u8> = Vec::new();
    loop {
        let decision = pick(chance, habit, world.allowed_mask(), decisions.last().copied());
        decisions.push(decision);
        if let Step::Verdict(_) = world.step(decision) {
            return decisions;
        }
    }
}

/// The largest complete list.
pub fn largest_list(start: &World) -> Vec<u8> {
    let mut world = start.clone();
    let mut decisions = Vec::new();
    loop {
        let decision = world.allowed_mask().ilog2() as u8;
        decisions.push(decision);
        if let Step::Verdict(_) = world.step(decision) {
            return decisions;
        }
    }
}

fn pick(chance: &mut Chance, habit: Habit, allowed: u8, last: Option<u8>) -> u8 {
    let all: Vec<u8> = (0..8).filter(|decision| allowed >> decision & 1 == 1).collect();
    if chance.once_in(6) {
        return chance.pick(&all);
    }
    match habit {
        Habit::Any => chance.pick(&all),
        Habit::Sticky => match last {
            Some(last) if all.contains(&last) => last,
            _ => chance.pick(&all),
        },
        Habit::Round => {
            let after = all.iter().find(|decision| Some(**decision) > last);
            *after.unwrap_or(&all[0])
        }
        Habit::Smallest => all[0],
        Habit::Largest => *all.last().expect("some decision is allowed"),
    }
}

/// Tables that reach a limit or pass it by one, each with what it is about.
pub fn limits() -> Vec<(&'static str, Vec<u8>)> {
    let thread = |operation: &[u8], times: usize| [&[0x20][..], &operation.repeat(times)].concat();
    let six = |header: &[u8], operation: &[u8]| [header, &thread(operation, 32).repeat(6)].concat();
    // Every wait takes three decisions of its thread, and each has a mutex of
    // its own to retake.
    let mut longest = [&[0x12][..], &[0x10, 0].repeat(5)].concat();
    (1..=5).for_each(|mutex| longest.extend(thread(&[0x39, 0, mutex], 32)));
    longest.extend(thread(&[0x3B, 0], 32));
    let mut counted = [&[0x15][..], &thread(&[0x40, 0], 32).repeat(5)].concat();
    counted.extend(thread(&[0x40, 0], 31));
    counted.extend([0x43, 0]);
    let crowd =
        [&[0x13, 0, 0, 0x12, 0x10, 0][..], &[0x20, 0x3C, 0, 0x39, 1, 2, 0x39, 1, 2].repeat(6)];
    vec![
        ("the longest list", longest),
        ("an Arc counted up to 193", six(&[0x15], &[0x40, 0])),
        ("a strong count of 192", counted),
        ("192 reads at once", six(&[0x16], &[0x44, 0])),
        ("16 messages left", [&[0x14][..], &thread(&[0x3E, 0], 16)].concat()),
        ("a 17th message", [&[0x14][..], &thread(&[0x3E, 0], 17)].concat()),
        ("waiters up to a 9th", crowd.concat()),
        ("the longest sheet", [&[0x14; 16][..], &[0x20; 6]].concat()),
        (
            "the longest sheet, in use",
            [&[0x14; 16][..], &thread(&[0x3E, 15], 2).repeat(6)].concat(),
        ),
        ("the longest table", longest_table()),
        ("tries at every turn", six(&[0x10, 0], &[0x31, 0])),
        ("questions at every wait", six(&[0x13, 1, 1].repeat(2), &[0x3D, 1])),
    ]
}

/// No accepted table is longer: the waits want a condvar and a mutex, and the
/// other objects are of the kind with the longest record.
fn longest_table() -> Vec<u8> {
    let objects = [&[0x12, 0x10, 1][..], &[0x13, 1, 0].repeat(14)].concat();
    let thread = [&[0x20][..], &[0x39, 0, 1].repeat(32)].concat();
    [objects, thread.repeat(6)].concat()
}

/// A copy with one mistake in it.
pub fn damaged_table(chance: &mut Chance, table: &[u8]) -> Vec<u8> {
    let mut bytes = table.to_vec();
    let at = chance.below(bytes.len());
    match chance.below(8) {
        0 => bytes[at] = chance.below(256) as u8,
        1 => {
            bytes[at] = chance
                .pick(&[0x0F, 0x10, 0x13, 0x16, 0x17, 0x20, 0x21, 0x2F, 0x30, 0x39, 0x47, 0x48])
        }
        2 => bytes.truncate(at),
        3 => drop(bytes.remove(at)),
        4 => bytes.insert(at, chance.pick(&[0x00, 0x01, 0x02, 0x14, 0x20, 0x3A])),
        5 => bytes[at] = bytes[at].wrapping_add(1),
        6 => overfill(chance, &mut bytes),
        _ => bytes.push(chance.pick(&[0x10, 0x11, 0x20, 0x30, 0x39, 0x80])),
    }
    bytes
}

/// Past one of the limits, the record that does it itself good or bad.
fn overfill(chance: &mut Chance, bytes: &mut Vec<u8>) {
    let mut made = Vec::new();
    match chance.below(3) {
        0 => {
            made.extend([0x14; 16]);
            made.extend(chance.pick(&[&[0x14][..], &[0x10, 0], &[0x10, 2], &[0x13, 0], &[0x20]]));
            made.extend(bytes.iter());
        }
        1 => {
            made.extend(bytes.iter());
            made.extend([0x20; 7]);
        }
        _ => {
            made.push(0x15);
            made.push(0x20);
            made.extend([0x40, 0].repeat(32));
            made.extend(chance.pick(&[
                &[0x40, 0][..],
                &[0x40, 1],
                &[0x40],
                &[0x10, 0],
                &[0x20, 0x40, 0],
            ]));
        }
    }
    *bytes = made;
}

/// Lists around a complete one: itself, cut, damaged, with a surplus.
pub fn lists_around(chance: &mut Chance, list: &[u8]) -> Vec<Vec<u8>> {
    let mut around = vec![list.to_vec()];
    around.push(list[..chance.below(list.len() + 1)].to_vec());
    around.push(list[..list.len() - 1].to_vec());
    let mut damaged = list.to_vec();
    let at = chance.below(list.len());
    damaged[at] = chance.pick(&[0, 1, 2, 3, 4, 5, 6, 255]);
    around.push(damaged);
    let mut surplus = list.to_vec();
    surplus.push(chance.pick(&[0, 1, 7, 255]));
    around.push(surplus);
    around
}
