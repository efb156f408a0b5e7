//! The oracle's judge, first and next: loom's files decide each step.

use crate::answer::{Answer, Machine, Step};
use crate::rt::Run;
use crate::table::Table;

/// The three calls, over one set of stacks that is used again and again.
pub struct Oracle {
    run: Run,
}

impl Oracle {
    pub fn new() -> Oracle {
        Oracle { run: Run::new() }
    }

    /// The run of a table, at its beginning.
    pub fn open(&mut self, table: &[u8]) -> Result<&mut Run, Answer> {
        self.run.load(Table::read(table)?);
        Ok(&mut self.run)
    }

    /// The answer, and the sheet's bytes; none where it stays untouched.
    pub fn judge(&mut self, table: &[u8], list: &[u8], sheet_length: usize) -> (Answer, Vec<u8>) {
        let table = match Table::read(table) {
            Ok(table) => table,
            Err(refusal) => return (refusal, Vec::new()),
        };
        let needed = table.sheet_length();
        if sheet_length < needed {
            return (Answer::at(25, needed), Vec::new());
        }
        self.run.load(table);
        let answer = follow(&mut self.run, list);
        let mut sheet = Vec::new();
        if answer.number <= 6 {
            self.run.sheet(&mut sheet);
            assert_eq!(sheet.len(), needed, "the sheet's length is known before");
        }
        (answer, sheet)
    }

    /// The list that `first` finds, or the refusal.
    pub fn first_list(&mut self, table: &[u8]) -> Found {
        let run = self.open(table)?;
        smallest(run, &mut Vec::new(), None).ok_or(Answer::of(7))
    }

    /// The list that `next` finds, or what is answered in its place.
    pub fn next_list(&mut self, table: &[u8], list: &[u8]) -> Found {
        let run = self.open(table)?;
        let answer = follow(run, list);
        match answer.number {
            23 | 24 => Err(answer),
            6 => Err(Answer::of(26)),
            _ => smallest(run, &mut Vec::new(), Some(list)).ok_or(Answer::of(7)),
        }
    }

    /// The answer, and the list; none where the buffer stays untouched.
    pub fn first(&mut self, table: &[u8], room: usize) -> (Answer, Vec<u8>) {
        handed_over(&self.first_list(table), room)
    }

    pub fn next(&mut self, table: &[u8], list: &[u8], room: usize) -> (Answer, Vec<u8>) {
        handed_over(&self.next_list(table, list), room)
    }
}

/// A list, or the answer where there is none.
pub type Found = Result<Vec<u8>, Answer>;

/// What is answered and written in a buffer with this room.
pub fn handed_over(found: &Found, room: usize) -> (Answer, Vec<u8>) {
    match found {
        Err(answer) => (*answer, Vec::new()),
        Ok(list) if list.len() > room => (Answer::at(25, list.len()), Vec::new()),
        Ok(list) => (Answer::at(8, list.len()), list.clone()),
    }
}

/// Follows the list from where the machine stands.
fn follow(run: &mut impl Machine, list: &[u8]) -> Answer {
    for (index, &decision) in list.iter().enumerate() {
        match run.decide(decision) {
            Step::Refused => return Answer::at(23, index),
            Step::Wants => {}
            Step::Verdict(_) if index + 1 < list.len() => return Answer::at(24, index + 1),
            Step::Verdict(answer) => return answer,
        }
    }
    Answer::of(6)
}

/// Puts the machine behind `front`; the verdict, if `front` is complete.
fn replay(run: &mut impl Machine, front: &[u8]) -> Option<Answer> {
    run.restart();
    front.iter().fold(None, |_, &decision| verdict(run.decide(decision)))
}

fn verdict(step: Step) -> Option<Answer> {
    match step {
        Step::Verdict(answer) => Some(answer),
        Step::Refused | Step::Wants => None,
    }
}

/// Depth first, smallest decisions first: the smallest complete list that
/// begins with `front` and is above `floor`, if there is one. `floor` is given
/// while `front` is still a front part of it. Stacks cannot be copied, so each
/// front part is replayed.
fn smallest(run: &mut impl Machine, front: &mut Vec<u8>, floor: Option<&[u8]>) -> Option<Vec<u8>> {
    if replay(run, front).is_some() {
        // No complete list is a front part of another: this one is the floor
        // itself, or lies above it.
        return floor.is_none().then(|| front.clone());
    }
    let allowed = run.allowed();
    let lowest = floor.map_or(0, |list| list[front.len()]);
    for decision in (lowest..8).filter(|decision| allowed >> decision & 1 == 1) {
        let still = floor.filter(|_| decision == lowest);
        front.push(decision);
        let found = smallest(run, front, still);
        front.pop();
        if found.is_some() {
            return found;
        }
    }
    None
}

/// Every complete list with its verdict, in order.
pub fn each_run(run: &mut impl Machine, visit: &mut impl FnMut(&[u8], Answer)) {
    let mut front = Vec::new();
    // For each decision of `front`: the larger ones allowed in its place.
    let mut later = Vec::new();
    loop {
        let mut reached = replay(run, &front);
        let answer = loop {
            if let Some(answer) = reached {
                break answer;
            }
            let allowed = run.allowed();
            front.push(allowed.trailing_zeros() as u8);
            later.push(allowed & (allowed - 1));
            reached = verdict(run.decide(allowed.trailing_zeros() as u8));
        };
        visit(&front, answer);
        if !turn_back(&mut front, &mut later) {
            return;
        }
    }
}

/// Moves to the next larger decision at the last place that has one.
fn turn_back(front: &mut Vec<u8>, later: &mut Vec<u8>) -> bool {
    while let Some(left) = later.pop() {
        front.pop();
        if left != 0 {
            front.push(left.trailing_zeros() as u8);
            later.push(left & (left - 1));
            return true;
        }
    }
    false
}
