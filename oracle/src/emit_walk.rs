//! Cases of `first` and `next` for stored vectors: the examples, the tables at
//! the limits, and random ones, as many of each kind.

use std::collections::BTreeMap;

use crate::emit::{cases, ROUNDS};
use crate::examples;
use crate::judge::{handed_over, Found, Oracle};
use crate::plain::{self, Slip};
use crate::random;
use crate::text::{hex, Chance};

/// Every kind of random case: the call, the answer, and the room for the list
/// that was found.
const KINDS: [&str; 18] = [
    "first, answer 8, exact room",
    "first, answer 8, more room",
    "first, answer 20",
    "first, answer 21",
    "first, answer 22",
    "first, answer 25, no room",
    "first, answer 25, one short",
    "next, answer 7",
    "next, answer 8, exact room",
    "next, answer 8, more room",
    "next, answer 20",
    "next, answer 21",
    "next, answer 22",
    "next, answer 23",
    "next, answer 24",
    "next, answer 25, no room",
    "next, answer 25, one short",
    "next, answer 26",
];

/// The last of the four is more than is needed.
fn rooms(found: &Found) -> [usize; 4] {
    let length = found.as_ref().map_or(0, Vec::len);
    [length, length.saturating_sub(1), 0, length + 9]
}

#[derive(Default)]
struct Lines {
    count: usize,
    met: BTreeMap<String, usize>,
}

impl Lines {
    /// Prints a case `call|table|list|room|answer|list found`, if its kind has
    /// been met less often than `most` times.
    fn put(&mut self, table: &[u8], list: Option<&[u8]>, room: usize, found: &Found, most: usize) {
        let call = if list.is_some() { "next" } else { "first" };
        let (answer, written) = handed_over(found, room);
        let how = match found {
            Err(_) => "",
            Ok(list) if list.len() == room => ", exact room",
            Ok(list) if list.len() < room => ", more room",
            Ok(_) if room == 0 => ", no room",
            Ok(list) if list.len() == room + 1 => ", one short",
            Ok(_) => ", too short",
        };
        let times = self.met.entry(format!("{call}, answer {}{how}", answer.number)).or_default();
        if *times < most {
            *times += 1;
            self.count += 1;
            let (table, list) = (hex(table), hex(list.unwrap_or(&[])));
            println!("{call}|{table}|{list}|{room}|{}|{}", answer.text(), hex(&written));
        }
    }

    fn note(&mut self, feature: String) {
        *self.met.entry(feature).or_default() += 1;
    }
}

/// The fixed cases, then `count` random ones or a few more, the same number of
/// each kind. What was met goes to standard error.
pub fn emit_walk(seed: u64, count: usize) {
    let mut oracle = Oracle::new();
    let (mut fixed, mut random) = (Lines::default(), Lines::default());
    of_examples(&mut oracle, &mut fixed);
    at_limits(&mut oracle, &mut fixed);
    at_random(&mut oracle, &mut random, seed, count.div_ceil(KINDS.len()));
    eprintln!("the examples and the tables at the limits: {} lines", fixed.count);
    fixed.met.iter().for_each(|(feature, times)| eprintln!("{times:6}  {feature}"));
    eprintln!("random cases: {} lines", random.count);
    for kind in KINDS {
        match random.met.get(kind) {
            None => eprintln!("NOT MET: {kind}"),
            Some(times) => eprintln!("{times:6}  {kind}"),
        }
    }
}

/// First of each table, next of each list.
fn of_examples(oracle: &mut Oracle, lines: &mut Lines) {
    let mut last = None;
    for (name, table, list) in examples::tables_and_lists() {
        if last.as_ref() != Some(&table) {
            let found = oracle.first_list(&table);
            lines.put(&table, None, rooms(&found)[3], &found, usize::MAX);
        }
        let found = oracle.next_list(&table, &list);
        lines.put(&table, Some(&list), rooms(&found)[3], &found, usize::MAX);
        lines.note(format!("example {name}"));
        last = Some(table);
    }
}

/// First, the list after it, and what comes after the largest: each with the
/// exact room. Of the longest list all rooms.
fn at_limits(oracle: &mut Oracle, lines: &mut Lines) {
    for (number, (about, table)) in random::limits().into_iter().enumerate() {
        let world = plain::read(&table, Slip::None).expect("a good table");
        let first = oracle.first_list(&table);
        let after = first.clone().and_then(|list| oracle.next_list(&table, &list));
        let largest = random::largest_list(&world);
        let none = oracle.next_list(&table, &largest);
        let wanted = if number == 0 { 0..4 } else { 0..1 };
        for place in wanted {
            lines.put(&table, None, rooms(&first)[place], &first, usize::MAX);
            lines.put(&table, first.as_deref().ok(), rooms(&after)[place], &after, usize::MAX);
        }
        lines.put(&table, Some(&largest), 600, &none, usize::MAX);
        let lengths = [first.map_or(0, |list| list.len()), after.map_or(0, |list| list.len())];
        lines.note(format!("limit: {about}, lists of {lengths:?}, largest of {}", largest.len()));
    }
}

/// Random tables until each kind has its share.
fn at_random(oracle: &mut Oracle, lines: &mut Lines, seed: u64, share: usize) {
    let mut chance = Chance::new(seed);
    for round in 0..ROUNDS {
        for case in cases(&mut chance, round).iter().filter(|case| case.list.len() <= 60) {
            let list = (!chance.once_in(4)).then_some(&case.list[..]);
            let found = match list {
                None => oracle.first_list(&case.table),
                Some(list) => oracle.next_list(&case.table, list),
            };
            let room = chance.pick(&rooms(&found));
            lines.put(&case.table, list, room, &found, share);
        }
        if KINDS.iter().all(|kind| lines.met.get(*kind) == Some(&share)) {
            return;
        }
    }
}
