//! The proved archive, as a third engine: the C calls of `skeldurn`.
//!
//! `oracle/build` looks which calls the archive has: cfg `archive` stands for
//! judge, `archive_walk` for first and next. A call that is not there is `None`.

use std::fmt;

use crate::answer::Answer;
use crate::plain::{Plain, Slip};
use crate::text::hex;

#[cfg(archive)]
extern "C" {
    fn skeldurn_judge(
        table: *const u8,
        table_len: usize,
        list: *const u8,
        list_len: usize,
        sheet: *mut u8,
        sheet_len: usize,
    ) -> u64;
}

#[cfg(archive_walk)]
extern "C" {
    fn skeldurn_first(table: *const u8, table_len: usize, list: *mut u8, list_len: usize) -> u64;

    fn skeldurn_next(
        table: *const u8,
        table_len: usize,
        list: *const u8,
        list_len: usize,
        next: *mut u8,
        next_len: usize,
    ) -> u64;
}

/// An answer's word.
pub type Word = u64;

#[cfg(archive)]
pub fn judge(table: &[u8], list: &[u8], sheet: &mut [u8]) -> Option<Word> {
    let (to, room) = (sheet.as_mut_ptr(), sheet.len());
    // SAFETY: each pointer goes with the length of what it points to.
    Some(unsafe {
        skeldurn_judge(table.as_ptr(), table.len(), list.as_ptr(), list.len(), to, room)
    })
}

#[cfg(archive_walk)]
pub fn first(table: &[u8], list: &mut [u8]) -> Option<Word> {
    // SAFETY: as in `judge`.
    Some(unsafe { skeldurn_first(table.as_ptr(), table.len(), list.as_mut_ptr(), list.len()) })
}

#[cfg(archive_walk)]
pub fn next(table: &[u8], list: &[u8], next: &mut [u8]) -> Option<Word> {
    let (to, room) = (next.as_mut_ptr(), next.len());
    // SAFETY: as in `judge`.
    Some(unsafe { skeldurn_next(table.as_ptr(), table.len(), list.as_ptr(), list.len(), to, room) })
}

#[cfg(not(archive))]
pub fn judge(_: &[u8], _: &[u8], _: &mut [u8]) -> Option<Word> {
    None
}

#[cfg(not(archive_walk))]
pub fn first(_: &[u8], _: &mut [u8]) -> Option<Word> {
    None
}

#[cfg(not(archive_walk))]
pub fn next(_: &[u8], _: &[u8], _: &mut [u8]) -> Option<Word> {
    None
}

/// The word of an answer: number, place, thread, position, object, other from
/// the lowest bit on.
fn word(answer: Answer) -> Word {
    let Answer { number, place, thread, position, object, other } = answer;
    let low = number as u64 | (place as u64) << 8 | (thread as u64) << 24;
    low | (position as u64) << 32 | (object as u64) << 40 | (other as u64) << 48
}

/// The length of the list that a word says was written, if one was.
pub fn list_length(word: Word) -> Option<usize> {
    (word as u8 == 8).then_some((word >> 8) as u16 as usize)
}

/// A word's six numbers, as `Answer::text` writes them.
fn text(word: Word) -> String {
    let bits = |from: u32, count: u32| word >> from & ((1 << count) - 1);
    let fields = [bits(0, 8), bits(8, 16), bits(24, 8), bits(32, 8), bits(40, 8), bits(48, 16)];
    fields.map(|field| field.to_string()).join(" ")
}

// ===== what was lent =====

/// Bytes on either side of a lent buffer that belong to nobody.
const FENCE: usize = 16;

/// A buffer to lend, between two fences. All of it is filled with a pattern, so
/// that a byte written in the wrong place shows.
#[derive(Default)]
struct Buffer {
    bytes: Vec<u8>,
    pattern: Vec<u8>,
}

impl Buffer {
    fn lend(&mut self, room: usize) -> &mut [u8] {
        let length = room + 2 * FENCE;
        let known = self.pattern.len();
        self.pattern.extend((known..length).map(|at| 0xA0 + (at % 89) as u8));
        self.bytes.clear();
        self.bytes.extend(&self.pattern[..length]);
        &mut self.bytes[FENCE..FENCE + room]
    }

    /// `written` stands at the buffer's front, and nothing else has changed.
    fn holds(&self, written: &[u8]) -> bool {
        let end = FENCE + written.len();
        end + FENCE <= self.bytes.len()
            && self.bytes[..FENCE] == self.pattern[..FENCE]
            && self.bytes[FENCE..end] == *written
            && self.bytes[end..] == self.pattern[end..self.bytes.len()]
    }

    /// From the buffer's first byte to the last one that has changed, and
    /// whether a fence has.
    fn changed(&self) -> String {
        let end = self.bytes.len() - FENCE;
        let has_changed = |at: &usize| self.bytes[*at] != self.pattern[*at];
        let last = (FENCE..end).rfind(has_changed).map_or(FENCE, |last| last + 1);
        let outside = (0..FENCE).chain(end..self.bytes.len()).any(|at| has_changed(&at));
        let note = if outside { ", and a byte outside the buffer has changed" } else { "" };
        format!("{}{note}", hex(&self.bytes[FENCE..last]))
    }
}

// ===== the comparison =====

/// The calls, apart by what they are compared with.
#[derive(Clone, Copy, PartialEq, Debug)]
pub enum Call {
    /// Judge as a whole call, with buffers of several lengths.
    Judge,
    /// Judge at a list's front part, or at its end, as the run goes on.
    Front,
    First,
    Next,
    /// Next, from one run of a table to the following one.
    Step,
}

pub const CALLS: [Call; 5] = [Call::Judge, Call::Front, Call::First, Call::Next, Call::Step];

impl Call {
    pub fn is_built_in(self) -> bool {
        match self {
            Call::Judge | Call::Front => cfg!(archive),
            Call::First | Call::Next | Call::Step => cfg!(archive_walk),
        }
    }
}

/// One mistake in a copy of what the archive is expected to say.
#[derive(Clone, Copy, PartialEq, Debug)]
pub enum Mistake {
    PlaceOffByOne,
    PlaceOf25OffByOne,
    ByteChanged,
    BytePastTheEnd,
    ByteOnRefusal,
    SixForAVerdict,
    NotCompleteForNone,
    RunSkipped,
}

pub const MISTAKES: [Mistake; 8] = [
    Mistake::PlaceOffByOne,
    Mistake::PlaceOf25OffByOne,
    Mistake::ByteChanged,
    Mistake::BytePastTheEnd,
    Mistake::ByteOnRefusal,
    Mistake::SixForAVerdict,
    Mistake::NotCompleteForNone,
    Mistake::RunSkipped,
];

impl Mistake {
    /// Whether a call's answers leave room for the mistake.
    pub fn fits(self, call: Call) -> bool {
        match self {
            Mistake::SixForAVerdict => matches!(call, Call::Judge | Call::Front),
            Mistake::NotCompleteForNone | Mistake::RunSkipped => {
                matches!(call, Call::Next | Call::Step)
            }
            Mistake::ByteChanged => true,
            // The steps of a run are neither refused nor short of room.
            Mistake::PlaceOffByOne => call != Call::Front,
            Mistake::PlaceOf25OffByOne | Mistake::ByteOnRefusal => {
                !matches!(call, Call::Front | Call::Step)
            }
            Mistake::BytePastTheEnd => call != Call::Front,
        }
    }

    fn put_into(self, table: &[u8], room: usize, answer: &mut Answer, written: &mut Vec<u8>) {
        let refused = answer.number >= 20;
        match self {
            Mistake::PlaceOffByOne if answer.number != 25 && answer.place > 0 => answer.place += 1,
            Mistake::PlaceOf25OffByOne if answer.number == 25 => answer.place += 1,
            Mistake::ByteChanged => {
                if let Some(last) = written.last_mut() {
                    *last ^= 1;
                }
            }
            Mistake::BytePastTheEnd if !refused && room > written.len() => written.push(0),
            Mistake::ByteOnRefusal if refused && room > 0 => written.push(0),
            Mistake::SixForAVerdict if answer.number <= 5 => *answer = Answer::of(6),
            Mistake::NotCompleteForNone if answer.number == 7 => answer.number = 26,
            Mistake::RunSkipped if answer.number == 8 => {
                let (after, list) = Plain { slip: Slip::None }.next(table, written, room);
                if after.number == 8 {
                    (*answer, *written) = (after, list);
                }
            }
            _ => {}
        }
    }
}

/// The archive's side of a comparison.
#[derive(Default)]
pub struct Archive {
    pub mistake: Option<(Call, Mistake)>,
    /// How often each of `CALLS` was compared.
    compared: [u64; CALLS.len()],
    buffer: Buffer,
}

impl fmt::Display for Archive {
    fn fmt(&self, out: &mut fmt::Formatter<'_>) -> fmt::Result {
        let [judge, front, first, next, step] = self.compared;
        if !Call::Judge.is_built_in() {
            return write!(out, "nothing, it is not built in");
        }
        write!(out, "judge calls {judge}, judge at front parts and ends of runs {front}, ")?;
        if !Call::First.is_built_in() {
            return write!(out, "no first and no next, it has none");
        }
        write!(out, "first calls {first}, next calls {next}, steps from run to run {step}")
    }
}

impl Archive {
    /// Calls the archive and looks at its word and at every byte lent. `Some`
    /// tells what it said, if that is not what was expected.
    pub fn differs(
        &mut self,
        call: Call,
        (table, list): (&[u8], &[u8]),
        room: usize,
        (answer, written): (Answer, &[u8]),
    ) -> Option<String> {
        let lent = self.buffer.lend(room);
        let said = match call {
            Call::Judge | Call::Front => judge(table, list, lent),
            Call::First => first(table, lent),
            Call::Next | Call::Step => next(table, list, lent),
        }?;
        self.compared[call as usize] += 1;
        let good = match self.mistake {
            Some((of, mistake)) if of == call => {
                let (mut answer, mut written) = (answer, written.to_vec());
                mistake.put_into(table, room, &mut answer, &mut written);
                said == word(answer) && self.buffer.holds(&written)
            }
            _ => said == word(answer) && self.buffer.holds(written),
        };
        (!good).then(|| format!("{} | {}", text(said), self.buffer.changed()))
    }
}
