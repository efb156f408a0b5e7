//! The oracle's reading of a table's bytes.

use crate::answer::Answer;

#[derive(Clone, Debug, Default)]
pub struct Table {
    pub objects: Vec<Object>,
    pub threads: Vec<Vec<Operation>>,
}

#[derive(Clone, Debug)]
pub struct Object {
    pub kind: u8,
    pub seq_cst: bool,
    pub spurious: bool,
}

#[derive(Clone, Copy, Debug)]
pub struct Operation {
    pub kind: u8,
    pub object: u8,
    /// The mutex of a condvar wait; 0 elsewhere.
    pub mutex: u8,
}

const OBJECTS: usize = 16;
const THREADS: usize = 6;
const OPERATIONS: usize = 32;

impl Table {
    pub fn read(bytes: &[u8]) -> Result<Table, Answer> {
        let mut table = Table::default();
        let mut place = 0;
        while place < bytes.len() {
            let length =
                table.record(&bytes[place..]).map_err(|number| Answer::at(number, place))?;
            place += length;
        }
        if table.threads.is_empty() {
            return Err(Answer::at(21, bytes.len()));
        }
        Ok(table)
    }

    /// Takes the record that `rest` begins with; its length, or the refusal.
    fn record(&mut self, rest: &[u8]) -> Result<usize, u8> {
        let kind = rest[0];
        let body = rest.get(1..1 + body_length(kind).ok_or(20)?).ok_or(20)?;
        match kind {
            0x10..=0x16 => self.object(kind, body)?,
            0x20 => self.thread()?,
            _ => self.operation(kind, body)?,
        }
        Ok(1 + body.len())
    }

    fn object(&mut self, kind: u8, flags: &[u8]) -> Result<(), u8> {
        if !self.threads.is_empty() || flags.iter().any(|&flag| flag > 1) {
            return Err(20);
        }
        if self.objects.len() == OBJECTS {
            return Err(21);
        }
        self.objects.push(Object {
            kind,
            seq_cst: flags.first() == Some(&1),
            spurious: flags.get(1) == Some(&1),
        });
        Ok(())
    }

    fn thread(&mut self) -> Result<(), u8> {
        if self.threads.len() == THREADS {
            return Err(21);
        }
        self.threads.push(Vec::new());
        Ok(())
    }

    fn operation(&mut self, kind: u8, body: &[u8]) -> Result<(), u8> {
        let operations = self.threads.last_mut().ok_or(20)?;
        if operations.len() == OPERATIONS {
            return Err(21);
        }
        let is = |number: u8, kind: u8| {
            self.objects.get(number as usize).is_some_and(|object| object.kind == kind)
        };
        let mutex = body.get(1).copied();
        if !is(body[0], object_of(kind)) || mutex.is_some_and(|mutex| !is(mutex, 0x10)) {
            return Err(22);
        }
        operations.push(Operation { kind, object: body[0], mutex: mutex.unwrap_or(0) });
        Ok(())
    }

    /// The sheet's length.
    pub fn sheet_length(&self) -> usize {
        let objects = self.objects.iter().map(|object| match object.kind {
            0x10 | 0x15 => 8,
            0x11 | 0x13 => 9,
            0x12 => 10,
            0x14 => 104,
            _ => 15,
        });
        17 * self.threads.len() + objects.sum::<usize>()
    }
}

fn body_length(kind: u8) -> Option<usize> {
    match kind {
        0x10 => Some(1),
        0x13 => Some(2),
        0x11 | 0x12 | 0x14..=0x16 => Some(0),
        0x20 => Some(0),
        0x39 => Some(2),
        0x30..=0x47 => Some(1),
        _ => None,
    }
}

/// The kind of object that an operation works on.
fn object_of(operation: u8) -> u8 {
    match operation {
        0x30..=0x32 => 0x10,
        0x33..=0x38 => 0x11,
        0x39..=0x3B => 0x12,
        0x3C..=0x3D => 0x13,
        0x3E..=0x3F => 0x14,
        0x40..=0x43 => 0x15,
        _ => 0x16,
    }
}
