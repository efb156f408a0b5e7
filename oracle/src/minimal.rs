//! Where the paper's rules and loom part: the smallest table and list that show
//! it, by search.

use std::collections::HashSet;
use std::convert::Infallible;

use crate::answer::{Answer, Machine, Step};
use crate::families::{family, CELL, CONDVAR, MUTEX, NOTIFY, RWLOCK};
use crate::judge::{each_run, Oracle};
use crate::plain::{self, Plain, Slip, World};
use crate::table::Table;
use crate::text::hex;

const SHEET: usize = 1766;

/// Prints each difference with its smallest input.
pub fn minimal() {
    let mut oracle = Oracle::new();
    let mut show = |about: &str, (table, list): &Input, loom: &str| {
        let (answer, sheet) = oracle.judge(table, list, SHEET);
        println!("{about}\n  table  {}\n  list   {}", hex(table), hex(list));
        println!("  answer {}\n  sheet  {}\n  loom   {loom}", answer.text(), hex(&sheet));
    };
    show("a 17th message", &message_too_many(), "the queue grows, the run goes on");
    show("a 9th waiter", &waiter_too_many(), "the queue grows, the run goes on");
    let input = own_unpark(1, sheets_part);
    show("unpark of the active thread, in the sheet", &input, &with_loom_unpark(&input));
    let input = own_unpark(2, answers_part);
    show("unpark of the active thread, in the verdict", &input, &with_loom_unpark(&input));
    let input = (vec![0x11, 0x20, 0x37, 0], vec![0]);
    show("release_read_lock on no read lock", &input, "stores, then panics");
    let (input, left) = store_before_panic();
    let left = format!("stores, then panics, and leaves {}", hex(&left));
    show("the same, with a clock to store", &input, &left);
}

/// A table and a list.
type Input = (Vec<u8>, Vec<u8>);

/// What the plain interpreter says with an unpark as in loom's `thread.rs`.
fn with_loom_unpark((table, list): &Input) -> String {
    let loom = Plain { slip: Slip::ActiveUnparkStored };
    let (answer, sheet) = loom.judge(table, list, SHEET);
    format!("{}, sheet {}", answer.text(), hex(&sheet))
}

// ===== room that is used up =====

/// Sends are all that fills a channel, and a second thread is a byte more.
fn message_too_many() -> Input {
    let tables = (1..).map(|count| [&[0x14, 0x20][..], &[0x3E, 0].repeat(count)].concat());
    let mut found = tables.filter_map(|table| with_answer_5(table, World::sheet_bytes));
    found.next().expect("17 sends do")
}

/// Tables of a condvar, a mutex and a Notify with nine waits, by their length.
///
/// A wait stops its thread unless it finds an unpark stored. Only another
/// thread's notify stores one, while this thread has announced an operation on
/// the Notify, and a wait there is as long as a notify. A condvar's own notify
/// takes an entry away for each thread that it lets go on. So nothing is needed
/// but notifies and waits, and before each wait of a thread but its last at
/// least as many notifies as waits up to it.
fn waiter_too_many() -> Input {
    let words = words_of_waits();
    for length in 0.. {
        let mut tables = Vec::new();
        for threads in 1..=6 {
            let header = vec![0x12, 0x10, 0, 0x13, 0, 0];
            add_threads(header, &words, threads, length, &mut tables);
        }
        let found = tables.into_iter().filter_map(|table| with_answer_5(table, rough_state));
        if let Some(input) = found.min_by_key(|(table, list)| (list.len(), table.clone())) {
            return input;
        }
    }
    unreachable!("some table is long enough")
}

const NOTIFIES: [u8; 2] = [0x3C, 2];
const WAITS: [u8; 3] = [0x39, 0, 1];

/// The operations of one thread, up to five notifies.
fn words_of_waits() -> Vec<Vec<u8>> {
    // The word, its notifies, its waits: it can be gone on with.
    let mut open = vec![(Vec::new(), 0, 0)];
    let mut words = Vec::new();
    while let Some((word, notifies, waits)) = open.pop() {
        let waiting = [&word[..], &WAITS].concat();
        words.push(waiting.clone());
        if waits < notifies {
            open.push((waiting, notifies, waits + 1));
        }
        if notifies < 5 {
            let notifying = [&word[..], &NOTIFIES].concat();
            words.push(notifying.clone());
            open.push((notifying, notifies + 1, waits));
        }
    }
    words.sort();
    words
}

/// Adds the tables of exactly this length that go on with so many threads, in
/// the order of their words, and have nine waits.
fn add_threads(
    table: Vec<u8>,
    words: &[Vec<u8>],
    threads: usize,
    length: usize,
    tables: &mut Vec<Vec<u8>>,
) {
    if threads == 0 {
        let waits = table[6..].iter().filter(|byte| **byte == WAITS[0]).count();
        if table.len() == length && waits == 9 {
            tables.push(table);
        }
        return;
    }
    for (at, word) in words.iter().enumerate() {
        // Each thread that is still to come takes three bytes and more.
        if table.len() + 1 + word.len() + 3 * (threads - 1) <= length {
            let longer = [&table[..], &[0x20], word].concat();
            add_threads(longer, &words[at..], threads - 1, length, tables);
        }
    }
}

/// What matters in a table of `waiter_too_many`: each thread's state, position
/// and phase, the number of waiters, the mutex's holder.
fn rough_state(world: &World) -> Vec<u8> {
    let sheet = world.sheet_bytes();
    let objects = sheet.iter().position(|byte| *byte == 0x92).expect("the condvar's record");
    let threads = sheet[..objects].chunks(17).flat_map(|record| record[1..4].to_vec());
    threads.chain([sheet[objects + 1], sheet[objects + 11]]).collect()
}

/// The shortest list with answer 5, the first by its bytes. Two worlds with the
/// same key count as one.
fn with_answer_5(table: Vec<u8>, key: fn(&World) -> Vec<u8>) -> Option<Input> {
    let mut level = vec![(Vec::new(), plain::read(&table, Slip::None).expect("a good table"))];
    let mut known = HashSet::new();
    while !level.is_empty() {
        let mut deeper = Vec::new();
        for (list, world) in &level {
            for decision in 0..6 {
                let mut next = world.clone();
                let longer = [&list[..], &[decision]].concat();
                match next.step(decision) {
                    Step::Verdict(Answer { number: 5, .. }) => return Some((table, longer)),
                    Step::Wants if known.insert(key(&next)) => deeper.push((longer, next)),
                    _ => {}
                }
            }
        }
        level = deeper;
    }
    None
}

// ===== unpark of the active thread =====

/// By the paper and by loom, after the same decisions.
struct Both {
    list: Vec<u8>,
    paper: World,
    loom: World,
}

/// A thread's own entry stays in a queue only after a wait that found an unpark
/// stored: two threads' operations on the Notify, a wait, a condvar's notify.
/// A stored unpark then shows in the sheet; only a second wait makes use of it.
/// The shortest table, then the shortest list at which the two part.
fn own_unpark(waits: usize, parts: fn(&Both, Step, Step) -> bool) -> Input {
    let mut tables = Vec::new();
    let all = family(&[CONDVAR, MUTEX, NOTIFY]);
    for count in 4..=5 {
        let Ok(()) = all.each_table(count, &mut |table: &[u8]| -> Result<(), Infallible> {
            let times =
                |kinds: &[u8]| table[6..].iter().filter(|byte| kinds.contains(byte)).count();
            let has_all = times(&[0x39]) >= waits && times(&[0x3A, 0x3B]) > 0;
            tables.extend((has_all && times(&[0x3C, 0x3D]) >= 2).then(|| table.to_vec()));
            Ok(())
        });
    }
    tables.sort_by_key(Vec::len);
    let mut found = tables.chunk_by(|one, other| one.len() == other.len()).filter_map(|tables| {
        let shown = tables.iter().filter_map(|table| Some((table.clone(), parting(table, parts)?)));
        shown.min_by_key(|(table, list)| (list.len(), table.clone()))
    });
    found.next().expect("five operations do")
}

/// The shortest list at which the paper and loom part, if they do.
fn parting(table: &[u8], parts: fn(&Both, Step, Step) -> bool) -> Option<Vec<u8>> {
    let world = |slip| plain::read(table, slip).expect("a good table");
    let start =
        Both { list: Vec::new(), paper: world(Slip::None), loom: world(Slip::ActiveUnparkStored) };
    let mut level = vec![start];
    while !level.is_empty() {
        let mut deeper = Vec::new();
        for Both { list, paper, loom } in &level {
            for decision in 0..3 {
                let list = [&list[..], &[decision]].concat();
                let mut both = Both { list, paper: paper.clone(), loom: loom.clone() };
                let steps = [both.paper.step(decision), both.loom.step(decision)];
                if parts(&both, steps[0], steps[1]) {
                    return Some(both.list);
                }
                if steps == [Step::Wants, Step::Wants] {
                    deeper.push(both);
                }
            }
        }
        level = deeper;
    }
    None
}

fn sheets_part(both: &Both, paper: Step, loom: Step) -> bool {
    paper != loom || paper == Step::Wants && both.paper.sheet_bytes() != both.loom.sheet_bytes()
}

fn answers_part(_: &Both, paper: Step, loom: Step) -> bool {
    paper != loom
}

// ===== release_read_lock on no read lock =====

/// The first small table in which loom has changed something before it panics,
/// and the state that it leaves.
fn store_before_panic() -> (Input, Vec<u8>) {
    let mut oracle = Oracle::new();
    let families = [family(&[RWLOCK]), family(&[RWLOCK, CELL])];
    for count in 1.. {
        for family in &families {
            let found = family.each_table(count, &mut |table: &[u8]| {
                panics_late(&mut oracle, table).map_or(Ok(()), Err)
            });
            if let Err(found) = found {
                return found;
            }
        }
    }
    unreachable!("two operations do")
}

fn panics_late(oracle: &mut Oracle, table: &[u8]) -> Option<(Input, Vec<u8>)> {
    let threads = Table::read(table).expect("a good table").threads;
    let run = oracle.open(table).expect("a good table");
    let mut misuses = Vec::new();
    each_run(run, &mut |list, Answer { number, thread, position, .. }| {
        if number == 4 && threads[thread as usize][position as usize].kind == 0x37 {
            misuses.push(list.to_vec());
        }
    });
    let (mut before, mut left) = (Vec::new(), Vec::new());
    for list in misuses {
        run.restart();
        list.iter().for_each(|decision| {
            run.decide(*decision);
        });
        run.sheet(&mut before);
        run.left_behind(&mut left);
        if before != left {
            return Some(((table.to_vec(), list), left));
        }
    }
    None
}
