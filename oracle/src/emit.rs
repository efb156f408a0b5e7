//! Cases for stored vectors, picked so that every feature is met.

use std::collections::{BTreeMap, BTreeSet};

use crate::answer::{Answer, Machine, Step};
use crate::judge::Oracle;
use crate::plain::{self, Plain, Slip, SLIPS};
use crate::random;
use crate::table::{Operation, Table};
use crate::text::{hex, unhex, Chance};

/// No feature asks for more cases than this.
const ENOUGH: usize = 12;
/// Random tables looked at before picking.
pub const ROUNDS: usize = 200_000;

/// Every verdict that an operation can meet, every place where a thread can be
/// stuck, and the other features that no list of cases should lack.
const REQUIRED: [&str; 55] = [
    "answer 0",
    "answer 1",
    "answer 2",
    "answer 3",
    "answer 4",
    "answer 5",
    "answer 6",
    "answer 20",
    "answer 21",
    "answer 22",
    "answer 23",
    "answer 24",
    "answer 25",
    "verdict 1 at 44",
    "verdict 1 at 45",
    "verdict 1 at 46",
    "verdict 1 at 47",
    "verdict 4 at 30 announced",
    "verdict 4 at 33 announced",
    "verdict 4 at 34 announced",
    "verdict 4 at 37",
    "verdict 4 at 39 retaking",
    "verdict 4 at 3D announced",
    "verdict 4 at 3F announced",
    "verdict 4 at 41 announced",
    "verdict 4 at 42 announced",
    "verdict 4 at 43 announced",
    "verdict 4 at 44",
    "verdict 4 at 45",
    "verdict 4 at 46",
    "verdict 4 at 47",
    "verdict 5 at 39 announced",
    "verdict 5 at 3E announced",
    "deadlock before 30 announced",
    "deadlock before 31 announced",
    "deadlock before 33 announced",
    "deadlock before 34 announced",
    "deadlock before 35 announced",
    "deadlock before 36 announced",
    "deadlock before 39 parked",
    "deadlock before 39 retaking",
    "deadlock before 3D announced",
    "deadlock before 3F announced",
    "leak of kind 14",
    "leak of kind 15",
    "leak of an object that is not the first",
    "6 at a question",
    "6 at the start",
    "23: at a question",
    "23: no such thread",
    "an unpark joins into an ended thread",
    "a thread queued twice",
    "16 messages",
    "8 waiters",
    "a list of 500 and more",
];

pub struct Case {
    pub table: Vec<u8>,
    pub list: Vec<u8>,
    length: usize,
}

type Features = BTreeSet<String>;

/// The features' names, each with a number, so that a pool of cases is small.
#[derive(Default)]
struct Names {
    numbers: BTreeMap<String, usize>,
}

impl Names {
    fn number(&mut self, name: String) -> usize {
        let next = self.numbers.len();
        *self.numbers.entry(name).or_insert(next)
    }
}

/// A case, and the numbers of the features that it meets.
struct Candidate {
    case: Case,
    meets: Vec<usize>,
}

/// Prints the cases; the table of features goes to standard error.
pub fn emit(seed: u64, count: usize) {
    let mut oracle = Oracle::new();
    let mut names = Names::default();
    let pool = pool(&mut oracle, &mut names, seed);
    let (picked, met) = pick(&pool, names.numbers.len(), count);
    for candidate in picked {
        println!("{}", line(&mut oracle, &pool[candidate].case));
    }
    let all = met.iter().filter(|times| **times > 0).count();
    let count = |name: &str| names.numbers.get(name).map_or(0, |number| met[*number]);
    for missing in REQUIRED.iter().filter(|name| count(name) == 0) {
        eprintln!("NOT MET: {missing}");
    }
    eprintln!("features met: {all} of {}, each with its number of cases", met.len());
    for (name, number) in &names.numbers {
        eprintln!("{:6}  {name}", met[*number]);
    }
}

/// Says the lines of `emit` and `emit walk` again, read from standard input:
/// how many lines each engine agrees with, and which slips no line notices.
/// True if both engines agree with all.
pub fn replay() -> bool {
    let mut oracle = Oracle::new();
    let (mut lines, mut good) = (0, [0, 0]);
    let mut unnoticed = SLIPS.to_vec();
    for text in std::io::stdin().lines().map_while(Result::ok) {
        if text.starts_with('#') {
            continue;
        }
        lines += 1;
        let Some(line) = Line::read(&text) else { continue };
        good[0] += line.is(line.by_oracle(&mut oracle)) as usize;
        good[1] += line.is(line.by_plain(Slip::None)) as usize;
        unnoticed.retain(|slip| line.is(line.by_plain(*slip)));
    }
    println!("{lines} lines; the oracle agrees on {}, the plain engine on {}", good[0], good[1]);
    println!("slips in the plain engine that no line notices: {unnoticed:?}");
    good == [lines, lines]
}

/// A line that was read.
struct Line<'a> {
    call: &'a str,
    table: Vec<u8>,
    list: Vec<u8>,
    length: usize,
    answer: &'a str,
    written: &'a str,
}

impl Line<'_> {
    fn read(text: &str) -> Option<Line<'_>> {
        let mut fields: Vec<&str> = text.split('|').collect();
        let call = if fields.len() == 6 { fields.remove(0) } else { "judge" };
        let [table, list, length, answer, written] = fields[..] else { return None };
        let (table, list, length) = (unhex(table)?, unhex(list)?, length.parse().ok()?);
        let known = ["judge", "first", "next"].contains(&call);
        known.then_some(Line { call, table, list, length, answer, written })
    }

    fn by_oracle(&self, oracle: &mut Oracle) -> (Answer, Vec<u8>) {
        match self.call {
            "judge" => oracle.judge(&self.table, &self.list, self.length),
            "first" => oracle.first(&self.table, self.length),
            _ => oracle.next(&self.table, &self.list, self.length),
        }
    }

    fn by_plain(&self, slip: Slip) -> (Answer, Vec<u8>) {
        let plain = Plain { slip };
        match self.call {
            "judge" => plain.judge(&self.table, &self.list, self.length),
            "first" => plain.first(&self.table, self.length),
            _ => plain.next(&self.table, &self.list, self.length),
        }
    }

    fn is(&self, (answer, written): (Answer, Vec<u8>)) -> bool {
        self.answer == answer.text() && self.written == hex(&written)
    }
}

/// Cases to pick from, small ones first.
fn pool(oracle: &mut Oracle, names: &mut Names, seed: u64) -> Vec<Candidate> {
    let mut chance = Chance::new(seed);
    let mut found = limit_cases(oracle);
    for round in 0..ROUNDS {
        found.extend(cases(&mut chance, round));
    }
    let mut pool: Vec<Candidate> = found
        .into_iter()
        .map(|case| {
            let features = features(oracle, &case);
            Candidate { case, meets: features.into_iter().map(|name| names.number(name)).collect() }
        })
        .collect();
    pool.sort_by_key(|candidate| candidate.case.table.len() + candidate.case.list.len());
    pool
}

/// First a case for every feature, then a second one, and so on.
fn pick(pool: &[Candidate], features: usize, count: usize) -> (Vec<usize>, Vec<usize>) {
    let mut met = vec![0; features];
    let mut picked = Vec::new();
    let mut taken = vec![false; pool.len()];
    for level in 1..=ENOUGH {
        for (number, candidate) in pool.iter().enumerate() {
            let wanted = candidate.meets.iter().any(|feature| met[*feature] < level);
            if wanted && !taken[number] && picked.len() < count {
                taken[number] = true;
                picked.push(number);
                candidate.meets.iter().for_each(|feature| met[*feature] += 1);
            }
        }
    }
    (picked, met)
}

/// The smallest run of each table at the limits, whole and cut.
fn limit_cases(oracle: &mut Oracle) -> Vec<Case> {
    let mut cases = Vec::new();
    for (_, table) in random::limits() {
        let length = Table::read(&table).expect("a good table").sheet_length();
        let (_, list) = oracle.first(&table, 600);
        let cut = list[..list.len() - 1].to_vec();
        cases.push(Case { table: table.clone(), list: cut, length });
        cases.push(Case { table, list, length });
    }
    cases
}

fn line(oracle: &mut Oracle, case: &Case) -> String {
    let (answer, sheet) = oracle.judge(&case.table, &case.list, case.length);
    let (table, list) = (hex(&case.table), hex(&case.list));
    format!("{table}|{list}|{}|{}|{}", case.length, answer.text(), hex(&sheet))
}

/// A random table with a few lists; in each fourth round a damaged one.
pub fn cases(chance: &mut Chance, round: usize) -> Vec<Case> {
    let table = random::table(chance);
    let world = plain::read(&table, Slip::None).expect("a good table");
    let list = random::list(chance, &world);
    if round % 4 == 3 {
        let length = chance.pick(&[1766, 1766, 0]);
        return vec![Case { table: random::damaged_table(chance, &table), list, length }];
    }
    let needed = world.sheet_bytes().len();
    let lists = random::lists_around(chance, &list);
    let mut length = || chance.pick(&[needed, needed, needed, needed + 1, needed - 1, 0]);
    lists.into_iter().map(|list| Case { table: table.clone(), list, length: length() }).collect()
}

// ===== features =====

/// A thread's record in a sheet.
#[derive(Clone, Copy)]
struct Record<'a> {
    bytes: &'a [u8],
}

impl Record<'_> {
    fn state(&self) -> u8 {
        self.bytes[1]
    }
    fn position(&self) -> usize {
        self.bytes[2] as usize
    }
    fn phase(&self) -> u8 {
        self.bytes[3]
    }
    fn clock(&self) -> &[u8] {
        &self.bytes[5..11]
    }
}

fn record(sheet: &[u8], thread: usize) -> Record<'_> {
    Record { bytes: &sheet[17 * thread..17 * thread + 17] }
}

/// What a thread stands before, as text: the operation's kind and the phase.
fn standing(table: &Table, sheet: &[u8], thread: usize) -> String {
    let now = record(sheet, thread);
    let phase = ["", " announced", " parked", " retaking"][now.phase() as usize];
    match table.threads[thread].get(now.position()) {
        None => "the end".into(),
        Some(operation) => format!("{:02X}{phase}", operation.kind),
    }
}

fn features(oracle: &mut Oracle, case: &Case) -> Features {
    let mut met = Features::new();
    let (answer, _) = oracle.judge(&case.table, &case.list, case.length);
    met.insert(format!("answer {}", answer.number));
    match Table::read(&case.table) {
        Err(refusal) => {
            met.insert(refusal_feature(&case.table, refusal));
        }
        Ok(table) => {
            size_features(&table, case, &mut met);
            if answer.number != 25 {
                run_features(oracle, &table, case, &mut met);
            }
        }
    }
    met
}

/// A refused table: the number, the record's kind, and all that is wrong.
fn refusal_feature(table: &[u8], refusal: Answer) -> String {
    let (before, rest) = table.split_at(refusal.place);
    let Some(kind) = rest.first() else {
        return "21: no thread at all".into();
    };
    let body = match kind {
        0x13 | 0x39 => 2,
        0x10 | 0x30..=0x47 => 1,
        0x11..=0x16 | 0x20 => 0,
        _ => return "20: unknown kind".into(),
    };
    let whole = rest.len() > body;
    // A table that is good so far is refused only for want of a thread.
    let so_far = Table::read(before);
    let threads = so_far.as_ref().map_or(0, |table| table.threads.len());
    let mut wrong = Vec::new();
    wrong.extend((!whole).then_some("cut"));
    wrong.extend((*kind < 0x20 && threads > 0).then_some("late"));
    wrong.extend((*kind >= 0x30 && threads == 0).then_some("early"));
    let flags = rest.iter().skip(1).take(body);
    wrong.extend((*kind < 0x20 && flags.clone().any(|flag| *flag > 1)).then_some("bad flag"));
    if let (Ok(table), 0x30.., true) = (&so_far, kind, whole) {
        let kinds: Vec<u8> = table.objects.iter().map(|object| object.kind).collect();
        let object = kinds.get(rest[1] as usize).map_or("absent", |_| "there");
        wrong.push(object);
        if *kind == 0x39 {
            let is = |at: usize, kind: u8| kinds.get(rest[at] as usize) == Some(&kind);
            wrong.push(if is(1, 0x12) { "condvar good" } else { "condvar bad" });
            wrong.push(if is(2, 0x10) { "mutex good" } else { "mutex bad" });
        }
    }
    format!("{}: kind {kind:02X} {}", refusal.number, wrong.join(", "))
}

fn size_features(table: &Table, case: &Case, met: &mut Features) {
    let needed = table.sheet_length();
    let room = match case.length {
        length if length + 1 == needed => "one short",
        length if length == needed => "exact",
        length if length > needed => "more than needed",
        _ => "far too short",
    };
    met.insert(format!("sheet buffer {room}"));
    let longest = table.threads.iter().map(Vec::len).max().unwrap_or(0);
    let limits = [
        ("16 objects", table.objects.len() == 16),
        ("no object", table.objects.is_empty()),
        ("6 threads", table.threads.len() == 6),
        ("32 operations", longest == 32),
        ("a thread without operations", table.threads.iter().any(Vec::is_empty)),
        ("a list of 100 and more", case.list.len() >= 100),
        ("a list of 500 and more", case.list.len() >= 500),
        ("an empty list", case.list.is_empty()),
    ];
    met.extend(limits.iter().filter(|(_, holds)| *holds).map(|(name, _)| name.to_string()));
}

fn run_features(oracle: &mut Oracle, table: &Table, case: &Case, met: &mut Features) {
    let run = oracle.open(&case.table).expect("a good table");
    let (mut before, mut after) = (Vec::new(), Vec::new());
    run.sheet(&mut before);
    let mut asked: Option<usize> = None;
    for (at, &decision) in case.list.iter().enumerate() {
        let step = run.decide(decision);
        run.sheet(&mut after);
        let active = asked.unwrap_or(decision as usize);
        match step {
            Step::Refused => {
                met.insert(format!("23: {}", why_refused(table, &before, asked, decision)));
                return;
            }
            Step::Verdict(answer) if at + 1 < case.list.len() => {
                met.insert(format!("24 after {}", answer.number));
                return;
            }
            Step::Verdict(answer) if matches!(answer.number, 1 | 4 | 5) => {
                met.insert(failure_feature(table, &after, answer));
                return;
            }
            Step::Verdict(answer) => verdict_features(table, &after, answer, met),
            Step::Wants => {}
        }
        if asked.is_some() {
            met.insert(format!("question answered {decision}"));
        } else {
            turn_features(table, &before, &after, active, met);
        }
        object_features(table, &after, met);
        asked = run.is_asked().then_some(active);
        if asked.is_some() {
            met.insert(question_feature(table, &after, active));
        }
        std::mem::swap(&mut before, &mut after);
    }
    if case.list.is_empty() {
        met.insert("6 at the start".into());
    } else if asked.is_some() {
        met.insert("6 at a question".into());
    }
}

fn question_feature(table: &Table, sheet: &[u8], thread: usize) -> String {
    let now = record(sheet, thread);
    let operation = table.threads[thread][now.position()];
    let notified = object_record(table, sheet, operation.object as usize)[1];
    format!("question, notified {notified}, state {}", now.state())
}

fn why_refused(table: &Table, sheet: &[u8], asked: Option<usize>, decision: u8) -> String {
    if asked.is_some() {
        return "at a question".into();
    }
    let thread = decision as usize;
    if thread >= table.threads.len() {
        return "no such thread".into();
    }
    format!("state {}, before {}", record(sheet, thread).state(), standing(table, sheet, thread))
}

fn failure_feature(table: &Table, sheet: &[u8], answer: Answer) -> String {
    let Answer { number, thread, .. } = answer;
    format!("verdict {number} at {}", standing(table, sheet, thread as usize))
}

fn verdict_features(table: &Table, sheet: &[u8], answer: Answer, met: &mut Features) {
    let Answer { number, thread, object, .. } = answer;
    met.insert(match number {
        2 => format!("deadlock before {}", standing(table, sheet, thread as usize)),
        3 => format!("leak of kind {:02X}", table.objects[object as usize].kind),
        _ => "clean".into(),
    });
    if number == 3 && object > 0 {
        met.insert("leak of an object that is not the first".into());
    }
}

/// What one turn did: its effect, what it went through, how it ended, and what
/// happened to the others.
fn turn_features(table: &Table, before: &[u8], after: &[u8], active: usize, met: &mut Features) {
    let (was, is) = (record(before, active), record(after, active));
    let start = standing(table, before, active);
    let operations = &table.threads[active];
    if was.phase() == 1 || was.phase() == 3 {
        met.insert(effect_feature(table, before, after, active));
    }
    if was.phase() == 2 {
        met.insert(format!("unparked thread runs, then state {} phase {}", is.state(), is.phase()));
    }
    let announced_done = (was.phase() == 1 || was.phase() == 3) as usize;
    let through = was.position() + announced_done..is.position();
    for operation in operations.get(through).unwrap_or_default() {
        met.insert(format!("went through {:02X}", operation.kind));
    }
    let state = is.state();
    met.extend(match is.phase() {
        1 => Some(format!("announces {}, state {state}", standing(table, after, active))),
        2 => Some("parks".into()),
        3 if was.phase() == 1 => Some(format!("stored unpark used up, then state {state}")),
        _ => None,
    });
    for other in (0..table.threads.len()).filter(|other| *other != active) {
        other_features(table, before, after, &start, other, met);
    }
}

fn effect_feature(table: &Table, before: &[u8], after: &[u8], active: usize) -> String {
    let start = standing(table, before, active);
    let was = record(before, active);
    let operation: &Operation = &table.threads[active][was.position()];
    let stored = if was.state() == 1 { ", unpark stored" } else { "" };
    match operation.kind {
        // The answer of a try, or of an Arc's operation, tells its cases apart.
        0x31 | 0x35 | 0x36 | 0x41 | 0x42 => {
            format!("effect of {start}, answer {}{stored}", record(after, active).bytes[4])
        }
        _ => format!("effect of {start}{stored}"),
    }
}

fn other_features(
    table: &Table,
    before: &[u8],
    after: &[u8],
    by: &str,
    other: usize,
    met: &mut Features,
) {
    let (was, is) = (record(before, other), record(after, other));
    let target = standing(table, before, other);
    if was.state() != is.state() {
        let change = format!("{} to {}", was.state(), is.state());
        met.insert(format!("turn of {by} takes {target} from state {change}"));
    }
    if was.clock() != is.clock() && was.state() == 3 {
        met.insert("an unpark joins into an ended thread".into());
    }
}

// ===== objects in a sheet =====

fn record_length(kind: u8) -> usize {
    match kind {
        0x10 | 0x15 => 8,
        0x11 | 0x13 => 9,
        0x12 => 10,
        0x14 => 104,
        _ => 15,
    }
}

fn object_record<'a>(table: &Table, sheet: &'a [u8], number: usize) -> &'a [u8] {
    let earlier = table.objects[..number].iter().map(|object| record_length(object.kind));
    let at = 17 * table.threads.len() + earlier.sum::<usize>();
    &sheet[at..at + record_length(table.objects[number].kind)]
}

fn object_features(table: &Table, sheet: &[u8], met: &mut Features) {
    for (number, object) in table.objects.iter().enumerate() {
        let record = object_record(table, sheet, number);
        if object.kind == 0x12 {
            waiter_features(table, sheet, &record[2..2 + record[1] as usize], met);
        }
        met.extend(object_feature(object.kind, record));
    }
}

fn object_feature(kind: u8, record: &[u8]) -> Option<String> {
    let count = record[1];
    match kind {
        0x11 if record[1] == 1 => Some(format!("{} readers at once", record[2].count_ones())),
        0x14 if count >= 15 => Some(format!("{count} messages")),
        0x15 if count == 0 => Some("an Arc at 0".into()),
        0x15 if count >= 60 => Some(format!("an Arc at {} and more", count / 60 * 60)),
        0x16 if count >= 128 => Some("a cell read 128 times at once".into()),
        0x16 if count >= 2 => Some("a cell read twice at once".into()),
        _ => None,
    }
}

fn waiter_features(table: &Table, sheet: &[u8], waiters: &[u8], met: &mut Features) {
    for (place, waiter) in waiters.iter().enumerate() {
        let now = record(sheet, *waiter as usize);
        if now.phase() != 2 {
            let stands = standing(table, sheet, *waiter as usize);
            met.insert(format!("stale waiter before {stands}, state {}", now.state()));
        }
        if waiters[..place].contains(waiter) {
            met.insert("a thread queued twice".into());
        }
    }
    if waiters.len() >= 7 {
        met.insert(format!("{} waiters", waiters.len()));
    }
}
