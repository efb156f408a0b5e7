//! Source locations are left out; a race's panic carries who is ahead.

use std::fmt;
use std::ops;

use super::thread;

#[derive(Debug, Default, Clone, Copy)]
pub(crate) struct Location;

impl Location {
    pub(super) fn disabled() -> Location {
        Location
    }

    pub(super) fn is_captured(&self) -> bool {
        false
    }
}

impl fmt::Display for Location {
    fn fmt(&self, _: &mut fmt::Formatter<'_>) -> fmt::Result {
        Ok(())
    }
}

/// cell.rs asks this for the location of an earlier access.
#[derive(Debug)]
pub(super) struct LocationSet;

static NOWHERE: Location = Location;

impl LocationSet {
    pub(super) fn new() -> LocationSet {
        LocationSet
    }

    pub(super) fn track(&mut self, _: Location, _: &thread::Set) {}
}

impl ops::Index<usize> for LocationSet {
    type Output = Location;

    fn index(&self, _: usize) -> &Location {
        &NOWHERE
    }
}

impl ops::Index<&thread::Set> for LocationSet {
    type Output = Location;

    fn index(&self, _: &thread::Set) -> &Location {
        &NOWHERE
    }
}

/// What a race's panic carries.
pub(super) struct Race {
    pub(super) ahead: usize,
}

/// cell.rs names two threads to the builder: the active one by its `Id`, and
/// the one that the clocks' comparison found, by its number. The type tells
/// them apart, whatever their order and whatever they are called.
pub(super) enum Named {
    Active,
    Ahead(usize),
}

impl From<thread::Id> for Named {
    fn from(_: thread::Id) -> Named {
        Named::Active
    }
}

impl From<usize> for Named {
    fn from(number: usize) -> Named {
        Named::Ahead(number)
    }
}

pub(super) struct PanicBuilder {
    ahead: Option<usize>,
}

pub(super) fn panic(_message: &str) -> PanicBuilder {
    PanicBuilder { ahead: None }
}

impl PanicBuilder {
    pub(super) fn location(&mut self, _key: &str, _: Location) -> &mut PanicBuilder {
        self
    }

    pub(super) fn thread(
        &mut self,
        _key: &str,
        thread: impl Into<Named>,
        _: Location,
    ) -> &mut PanicBuilder {
        if let Named::Ahead(number) = thread.into() {
            self.ahead = Some(number);
        }
        self
    }

    pub(super) fn fire(&self) {
        let ahead = self.ahead.expect("a race names who is ahead");
        std::panic::resume_unwind(Box::new(Race { ahead }));
    }
}
