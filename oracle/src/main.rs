//! The oracle: loom's lock objects, unchanged, as the judge of a lock table.

/// loom's files import `tracing::trace`; this crate stands in for that one.
extern crate self as tracing;

mod quiet {
    macro_rules! trace {
        ($($ignored:tt)*) => {
            ()
        };
    }
    pub(crate) use trace;
}
pub(crate) use quiet::trace;

/// loom's own `dbg!` hands its value through.
macro_rules! dbg {
    ($value:expr) => {
        $value
    };
}

mod answer;
mod archive;
mod compare;
mod emit;
mod emit_walk;
mod examples;
mod families;
mod judge;
mod minimal;
mod plain;
mod random;
mod rt;
mod speed;
mod stack;
mod table;
mod text;

use std::io::{BufWriter, Write};
use std::process::ExitCode;

use answer::Answer;
use archive::{CALLS, MISTAKES};
use compare::{Comparison, Difference};
use judge::{each_run, Oracle};
use plain::{Slip, SLIPS};
use text::{hex, run_line, unhex};

const USAGE: &str = "modes:
  judge TABLE LIST [SHEETLEN]    the six numbers, then the sheet
  first TABLE [ROOM]             the six numbers, then the list
  next TABLE LIST [ROOM]         the six numbers, then the list
  runs TABLE                     every run: verdict and decisions
  examples                       the paper's examples in both engines
  compare small N [single|pairs|triples]
  compare random SEED COUNT
  compare limits                 tables at the limits
  slips                          every slip must be noticed
  minimal                        the smallest inputs where paper and loom part
  emit SEED COUNT                cases: table|list|length|answer|sheet
  emit walk SEED COUNT           cases: first or next|table|list|room|answer|list
  replay                         such lines on standard input, said again
  speed [COUNT [LEAST]]          decisions a second, by COUNT lists of at least
                                 LEAST decisions
  speed once ENGINE [COUNT [LEAST]]
                                 such lists once by oracle, plain, archive or
                                 none, for an instruction counter
  speed walk [CAP]               runs a second, by first and next
  stack KB                       the archive's calls within that much stack
TABLE and LIST are hexadecimal; \"\" is the empty one.";

const ENOUGH_ROOM: usize = 1766;

fn main() -> ExitCode {
    let arguments: Vec<String> = std::env::args().skip(1).collect();
    let words: Vec<&str> = arguments.iter().map(String::as_str).collect();
    match run(&words) {
        Some(true) => ExitCode::SUCCESS,
        Some(false) => ExitCode::FAILURE,
        None => {
            eprintln!("{USAGE}");
            ExitCode::from(2)
        }
    }
}

/// `None` if the words are no mode; otherwise whether all went well.
fn run(words: &[&str]) -> Option<bool> {
    let bytes = |word: &str| unhex(word);
    match words {
        ["judge", table, list, rest @ ..] => {
            let length = number_or(rest, ENOUGH_ROOM)?;
            print_answer(Oracle::new().judge(&bytes(table)?, &bytes(list)?, length));
        }
        ["first", table, rest @ ..] => {
            let room = number_or(rest, ENOUGH_ROOM)?;
            print_answer(Oracle::new().first(&bytes(table)?, room));
        }
        ["next", table, list, rest @ ..] => {
            let room = number_or(rest, ENOUGH_ROOM)?;
            print_answer(Oracle::new().next(&bytes(table)?, &bytes(list)?, room));
        }
        ["runs", table] => print_runs(&bytes(table)?),
        ["examples"] => return Some(examples::examples()),
        ["compare", "small", most] => return Some(compare_small(most.parse().ok()?, "all")),
        ["compare", "small", most, name @ ("single" | "pairs" | "triples")] => {
            return Some(compare_small(most.parse().ok()?, name));
        }
        ["compare", "random", seed, count] => {
            return Some(compare_random(seed.parse().ok()?, count.parse().ok()?));
        }
        ["compare", "limits"] => return Some(compare_limits()),
        ["slips"] => return Some(slips()),
        ["emit", "walk", seed, count] => {
            emit_walk::emit_walk(seed.parse().ok()?, count.parse().ok()?);
        }
        ["minimal"] => minimal::minimal(),
        ["replay"] => return Some(emit::replay()),
        ["emit", seed, count] => emit::emit(seed.parse().ok()?, count.parse().ok()?),
        ["stack", kilobytes] => return Some(stack::within(kilobytes.parse().ok()?)),
        ["speed", "walk", rest @ ..] => speed::walk(number_or(rest, 1000)?),
        ["speed", "once", engine @ ("oracle" | "plain" | "archive" | "none"), rest @ ..] => {
            let (count, least) = count_and_least(rest)?;
            speed::once(engine, count, least);
        }
        ["speed", rest @ ..] => {
            let (count, least) = count_and_least(rest)?;
            speed::judge(count, least);
        }
        _ => return None,
    }
    Some(true)
}

fn number_or(words: &[&str], otherwise: usize) -> Option<usize> {
    match words {
        [] => Some(otherwise),
        [word] => word.parse().ok(),
        _ => None,
    }
}

/// How many lists, and of how many decisions at least.
fn count_and_least(words: &[&str]) -> Option<(usize, usize)> {
    match words {
        [] => Some((2000, 0)),
        [count] => Some((count.parse().ok()?, 0)),
        [count, least] => Some((count.parse().ok()?, least.parse().ok()?)),
        _ => None,
    }
}

fn print_answer((answer, bytes): (Answer, Vec<u8>)) {
    println!("{}", answer.text());
    println!("{}", hex(&bytes));
}

fn print_runs(table: &[u8]) {
    let mut oracle = Oracle::new();
    let run = match oracle.open(table) {
        Err(refusal) => return println!("refused {} at {}", refusal.number, refusal.place),
        Ok(run) => run,
    };
    let mut out = BufWriter::new(std::io::stdout());
    each_run(run, &mut |list, answer| {
        // A reader that has seen enough may close the pipe.
        if writeln!(out, "{}", run_line(answer.number, list)).is_err() {
            std::process::exit(0);
        }
    });
}

fn compare_small(most: usize, name: &str) -> bool {
    let mut comparison = Comparison::new(Slip::None);
    let found = comparison.small(most, name);
    told(&comparison, found.err())
}

fn compare_random(seed: u64, count: u64) -> bool {
    let mut comparison = Comparison::new(Slip::None);
    let found = comparison.random(seed, count);
    told(&comparison, found.err())
}

fn compare_limits() -> bool {
    let mut comparison = Comparison::new(Slip::None);
    let found = comparison.limits();
    told(&comparison, found.err())
}

fn told(comparison: &Comparison, found: Option<Box<Difference>>) -> bool {
    println!("compared: {}", comparison.counts);
    println!("of these with the archive: {}", comparison.archive);
    match &found {
        None => println!("no disagreement"),
        Some(difference) => println!("DISAGREEMENT\n{difference}"),
    }
    found.is_none()
}

/// Each slip in the plain engine, then each mistake in what the archive is
/// expected to say, until a comparison notices it.
fn slips() -> bool {
    let mut missed = 0;
    for slip in SLIPS {
        let found = noticed(&|| Comparison::new(slip));
        missed += told_of_slip(&format!("{slip:?}"), found) as usize;
    }
    println!("{} slips in the plain engine, {missed} not noticed", SLIPS.len());
    let (mut tried, mut missed_by_archive) = (0, 0);
    for call in CALLS.into_iter().filter(|call| call.is_built_in()) {
        for mistake in MISTAKES.into_iter().filter(|mistake| mistake.fits(call)) {
            tried += 1;
            let found = noticed(&|| Comparison::expecting(call, mistake));
            missed_by_archive += told_of_slip(&format!("{call:?}, {mistake:?}"), found) as usize;
        }
    }
    println!("{tried} slips in what the archive should say, {missed_by_archive} not noticed");
    missed + missed_by_archive == 0
}

/// Prints by what a slip was noticed; true if by nothing.
fn told_of_slip(name: &str, found: Option<(&str, Box<Difference>)>) -> bool {
    match &found {
        Some((by, difference)) => println!("{name}: noticed by {by}\n{difference}"),
        None => println!("{name}: NOT NOTICED"),
    }
    found.is_none()
}

/// The quickest comparison that notices a slip, and the smallest case it has.
fn noticed(new: &dyn Fn() -> Comparison) -> Option<(&'static str, Box<Difference>)> {
    if let Err(difference) = new().small(2, "all") {
        return Some(("compare small 2", difference));
    }
    if let Err(difference) = new().random(1, 20_000) {
        return Some(("compare random 1 20000", difference));
    }
    let small = new().small(3, "all").err();
    small.map(|difference| ("compare small 3", difference))
}
