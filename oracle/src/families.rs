//! Small tables, all of them: families of objects with the operations on them.

// Places in `OBJECTS`.
pub const MUTEX: usize = 0;
pub const RWLOCK: usize = 1;
pub const CONDVAR: usize = 2;
pub const NOTIFY: usize = 3;
pub const CELL: usize = 7;

/// Objects as a table writes them.
const OBJECTS: [&[u8]; 8] =
    [&[0x10, 0], &[0x11], &[0x12], &[0x13, 0, 0], &[0x13, 0, 1], &[0x14], &[0x15], &[0x16]];

/// Triples in which kinds of waking meet: stored unparks, stale waiters,
/// retakes beside locks, channels and cells.
const TRIPLES: [[usize; 3]; 8] =
    [[2, 0, 3], [2, 0, 4], [2, 0, 5], [2, 0, 1], [2, 0, 0], [0, 7, 3], [0, 7, 6], [5, 7, 6]];

pub struct Family {
    /// The objects' part of each table.
    header: Vec<u8>,
    /// Every operation that the objects allow, with its body.
    operations: Vec<Vec<u8>>,
    objects: usize,
}

fn operations_on(kind: u8, number: u8, mutexes: &[u8]) -> Vec<Vec<u8>> {
    let kinds = match kind {
        0x10 => 0x30..=0x32,
        0x11 => 0x33..=0x38,
        0x12 => 0x3A..=0x3B,
        0x13 => 0x3C..=0x3D,
        0x14 => 0x3E..=0x3F,
        0x15 => 0x40..=0x43,
        _ => 0x44..=0x47,
    };
    let mut all: Vec<Vec<u8>> = kinds.map(|operation| vec![operation, number]).collect();
    if kind == 0x12 {
        all.extend(mutexes.iter().map(|mutex| vec![0x39, number, *mutex]));
    }
    all
}

/// The family of some objects, each by its place in `OBJECTS`.
pub fn family(of: &[usize]) -> Family {
    let numbered =
        || of.iter().enumerate().map(|(number, object)| (number as u8, OBJECTS[*object]));
    let mutexes: Vec<u8> =
        numbered().filter(|(_, object)| object[0] == 0x10).map(|(number, _)| number).collect();
    Family {
        header: numbered().flat_map(|(_, object)| object.to_vec()).collect(),
        operations: numbered()
            .flat_map(|(number, object)| operations_on(object[0], number, &mutexes))
            .collect(),
        objects: of.len(),
    }
}

/// The families of a name; `all` gives every one.
pub fn families(name: &str) -> Vec<Family> {
    let kinds = 0..OBJECTS.len();
    let mut found = Vec::new();
    if matches!(name, "single" | "all") {
        found.extend(kinds.clone().map(|object| family(&[object])));
    }
    if matches!(name, "pairs" | "all") {
        let pairs = kinds.flat_map(|one| (one..OBJECTS.len()).map(move |other| [one, other]));
        found.extend(pairs.map(|pair| family(&pair)));
    }
    if matches!(name, "triples" | "all") {
        found.extend(TRIPLES.iter().map(|triple| family(triple)));
    }
    found
}

impl Family {
    /// Each table with `count` operations in all, by 1 to 3 threads, that uses
    /// every object of the family: the others belong to smaller families.
    pub fn each_table<E>(
        &self,
        count: usize,
        visit: &mut impl FnMut(&[u8]) -> Result<(), E>,
    ) -> Result<(), E> {
        let mut word = vec![0; count];
        loop {
            if self.uses_all(&word) {
                self.each_division(&word, visit)?;
            }
            let Some(place) = word.iter().rposition(|letter| letter + 1 < self.operations.len())
            else {
                return Ok(());
            };
            word[place] += 1;
            word[place + 1..].fill(0);
        }
    }

    fn uses_all(&self, word: &[usize]) -> bool {
        let used = |object| {
            word.iter().any(|letter| {
                let operation = &self.operations[*letter];
                operation[1..].contains(&(object as u8))
            })
        };
        (0..self.objects).all(used) || word.is_empty() && self.objects == 1
    }

    /// The word divided among one, two and three threads, in every way.
    fn each_division<E>(
        &self,
        word: &[usize],
        visit: &mut impl FnMut(&[u8]) -> Result<(), E>,
    ) -> Result<(), E> {
        visit(&self.table(&[word]))?;
        for first in 0..=word.len() {
            let (one, rest) = word.split_at(first);
            visit(&self.table(&[one, rest]))?;
            for second in 0..=rest.len() {
                let (two, three) = rest.split_at(second);
                visit(&self.table(&[one, two, three]))?;
            }
        }
        Ok(())
    }

    fn table(&self, threads: &[&[usize]]) -> Vec<u8> {
        let mut bytes = self.header.clone();
        for word in threads {
            bytes.push(0x20);
            word.iter().for_each(|letter| bytes.extend(&self.operations[*letter]));
        }
        bytes
    }
}
