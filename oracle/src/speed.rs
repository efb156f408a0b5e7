//! How fast each engine is, on the same inputs.

use std::hint::black_box;
use std::time::Instant;

use crate::archive::{self, Call};
use crate::judge::Oracle;
use crate::plain::{self, Plain, Slip};
use crate::random;
use crate::text::Chance;

const SHEET: usize = 1766;
const LIST: usize = 600;
/// Tables whose runs are walked through.
const TABLES: usize = 20;

const PLAIN: Plain = Plain { slip: Slip::None };

/// Does the work again and again for two seconds; how often, and in what time.
fn rounds(work: &mut dyn FnMut()) -> (usize, f64) {
    let begun = Instant::now();
    let mut rounds = 0;
    while begun.elapsed().as_secs() < 2 {
        work();
        rounds += 1;
    }
    (rounds, begun.elapsed().as_secs_f64())
}

#[repr(C)]
struct TimeSpec {
    seconds: i64,
    nanoseconds: i64,
}

/// The clock of the processor's time that this process has had, on Linux.
const PROCESS_CPU: i32 = 2;

extern "C" {
    fn clock_gettime(clock: i32, time: *mut TimeSpec) -> i32;
}

fn processor_seconds() -> f64 {
    let mut time = TimeSpec { seconds: 0, nanoseconds: 0 };
    let failed = unsafe { clock_gettime(PROCESS_CPU, &mut time) };
    assert_eq!(failed, 0, "no clock of the processor's time");
    time.seconds as f64 + time.nanoseconds as f64 / 1e9
}

/// What the rounds of one engine took.
#[derive(Clone)]
struct Pace {
    rounds: usize,
    seconds: f64,
    /// Of the processor's time, in the round that took least.
    best: f64,
}

impl Pace {
    fn round(&mut self, work: &mut dyn FnMut()) {
        let (begun, had) = (Instant::now(), processor_seconds());
        work();
        self.best = self.best.min(processor_seconds() - had);
        self.seconds += begun.elapsed().as_secs_f64();
        self.rounds += 1;
    }
}

type Case = (Vec<u8>, Vec<u8>);

/// So many random lists of at least so many decisions, each with its table.
fn cases(count: usize, least: usize) -> Vec<Case> {
    let mut chance = Chance::new(7);
    let mut cases = Vec::new();
    while cases.len() < count {
        let table = random::table(&mut chance);
        let world = plain::read(&table, Slip::None).expect("a good table");
        let list = random::list(&mut chance, &world);
        if list.len() >= least {
            cases.push((table, list));
        }
    }
    cases
}

type Engine<'a> = (&'static str, Box<dyn FnMut(&[u8], &[u8]) + 'a>);

/// A sheet is written where a call gives one, and by the oracle before each
/// turn too.
fn engines<'a>(oracle: &'a mut Oracle, sheet: &'a mut [u8; SHEET]) -> Vec<Engine<'a>> {
    let mut engines: Vec<Engine> = vec![
        ("oracle", Box::new(|table, list| drop(black_box(oracle.judge(table, list, SHEET))))),
        ("plain", Box::new(|table, list| drop(black_box(PLAIN.judge(table, list, SHEET))))),
    ];
    if Call::Judge.is_built_in() {
        let archive = |table: &[u8], list: &[u8]| {
            let _ = archive::judge(table, list, sheet);
        };
        engines.push(("archive", Box::new(archive)));
    }
    engines
}

fn judge_all(cases: &[Case], judge: &mut dyn FnMut(&[u8], &[u8])) {
    cases.iter().for_each(|(table, list)| judge(table, list));
}

/// Decisions a second by judge, the engines by turns.
pub fn judge(count: usize, least: usize) {
    let cases = cases(count, least);
    let (mut oracle, mut sheet) = (Oracle::new(), [0; SHEET]);
    let mut engines = engines(&mut oracle, &mut sheet);
    let mut paces = vec![Pace { rounds: 0, seconds: 0.0, best: f64::INFINITY }; engines.len()];
    let begun = Instant::now();
    while begun.elapsed().as_secs() < 6 {
        for ((_, judge), pace) in engines.iter_mut().zip(&mut paces) {
            pace.round(&mut || judge_all(&cases, judge));
        }
    }
    let decisions: usize = cases.iter().map(|(_, list)| list.len()).sum();
    for ((name, _), Pace { rounds, seconds, best }) in engines.iter().zip(paces) {
        let (mean, most) = ((decisions * rounds) as f64 / seconds, decisions as f64 / best);
        println!("{name}: {count} lists, {decisions} decisions, {rounds} rounds: {mean:.0} decisions a second by the clock, {most:.0} by the processor's time of the best round");
    }
}

/// One round of one engine, for an instruction counter to run; of none, to
/// know what making the lists takes.
pub fn once(name: &str, count: usize, least: usize) {
    let cases = cases(count, least);
    let (mut oracle, mut sheet) = (Oracle::new(), [0; SHEET]);
    for (_, judge) in engines(&mut oracle, &mut sheet).iter_mut().filter(|(of, _)| *of == name) {
        judge_all(&cases, judge);
    }
}

/// Takes a table and a list, and puts the following list in its place; the
/// first one, if there is none before. False if there is no later list.
type Follow<'a> = &'a mut dyn FnMut(&[u8], Option<&[u8]>, &mut Vec<u8>) -> bool;

/// Runs a second by first and next, at most `cap` of each table, on random
/// tables that have at least as many.
pub fn walk(cap: usize) {
    let mut chance = Chance::new(7);
    let mut tables = Vec::new();
    while tables.len() < TABLES {
        let table = random::table(&mut chance);
        if walked(&table, cap, &mut by_plain).0 == cap {
            tables.push(table);
        }
    }
    let mut oracle = Oracle::new();
    timed_walk("oracle", &tables, cap, &mut |table, before, list| {
        let found = match before {
            None => oracle.first_list(table),
            Some(before) => oracle.next_list(table, before),
        };
        found.map(|found| *list = found).is_ok()
    });
    timed_walk("plain", &tables, cap, &mut by_plain);
    if Call::Next.is_built_in() {
        timed_walk("archive", &tables, cap, &mut |table, before, list| {
            list.resize(LIST, 0);
            let word = match before {
                None => archive::first(table, list),
                Some(before) => archive::next(table, before, list),
            };
            let length = word.and_then(archive::list_length);
            list.truncate(length.unwrap_or(0));
            length.is_some()
        });
    }
}

fn by_plain(table: &[u8], before: Option<&[u8]>, list: &mut Vec<u8>) -> bool {
    let (answer, found) = match before {
        None => PLAIN.first(table, LIST),
        Some(before) => PLAIN.next(table, before, LIST),
    };
    *list = found;
    answer.number == 8
}

/// The number of runs met, up to the cap, and of their decisions.
fn walked(table: &[u8], cap: usize, follow: Follow) -> (usize, usize) {
    let (mut before, mut list) = (Vec::new(), Vec::new());
    let (mut runs, mut decisions) = (0, 0);
    while runs < cap && follow(table, (runs > 0).then_some(&before), &mut list) {
        runs += 1;
        decisions += list.len();
        std::mem::swap(&mut before, &mut list);
    }
    (runs, decisions)
}

fn timed_walk(name: &str, tables: &[Vec<u8>], cap: usize, follow: Follow) {
    let (mut runs, mut decisions) = (0, 0);
    let (rounds, seconds) = rounds(&mut || {
        for table in tables {
            let (more_runs, more_decisions) = walked(table, cap, follow);
            runs += more_runs;
            decisions += more_decisions;
        }
    });
    let rate = runs as f64 / seconds;
    let (count, runs, decisions) = (tables.len(), runs / rounds, decisions / rounds);
    let work =
        format!("{count} tables, {runs} runs, {decisions} decisions in them, {rounds} rounds");
    println!("{name}: {work}: {rate:.0} runs a second");
}
