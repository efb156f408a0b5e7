//! Answers, and what both engines offer to those who compare them.

/// Number, place, thread, position, object, other.
#[derive(Clone, Copy, Debug, PartialEq, Eq)]
pub struct Answer {
    pub number: u8,
    pub place: usize,
    pub thread: u8,
    pub position: u8,
    pub object: u8,
    pub other: u8,
}

impl Answer {
    /// The number alone, all else unused.
    pub fn of(number: u8) -> Answer {
        Answer { number, place: 0, thread: 255, position: 255, object: 255, other: 255 }
    }

    pub fn at(number: u8, place: usize) -> Answer {
        Answer { place, ..Answer::of(number) }
    }

    /// The six numbers in decimal, with spaces between.
    pub fn text(&self) -> String {
        let Answer { number, place, thread, position, object, other } = self;
        format!("{number} {place} {thread} {position} {object} {other}")
    }
}

/// What one decision gives.
#[derive(Clone, Copy, Debug, PartialEq, Eq)]
pub enum Step {
    /// Not allowed; nothing has changed.
    Refused,
    /// A further decision is wanted.
    Wants,
    /// Verdict 0 to 5.
    Verdict(Answer),
}

/// A table under way. Both engines are one.
pub trait Machine {
    /// Back to the table's beginning.
    fn restart(&mut self);
    /// The allowed decisions, as a mask.
    fn allowed(&self) -> u8;
    fn decide(&mut self, decision: u8) -> Step;
    /// The sheet that goes with the last answer.
    fn sheet(&self, out: &mut Vec<u8>);
}
