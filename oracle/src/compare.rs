//! The oracle against the plain interpreter and the proved archive: every
//! answer and every byte.

use std::fmt;

use crate::answer::{Answer, Machine, Step};
use crate::archive::{Archive, Call, Mistake};
use crate::families::families;
use crate::judge::{handed_over, Found, Oracle};
use crate::plain::{self, Plain, Slip, World};
use crate::random;
use crate::rt::Run;
use crate::table::Table;
use crate::text::{hex, Chance};

/// What was compared.
#[derive(Default)]
pub struct Counts {
    tables: u64,
    refused: u64,
    runs: u64,
    states: u64,
    judged: u64,
    walked: u64,
    /// Calls from one run to the following one.
    steps: u64,
    verdicts: [u64; 6],
    /// Random runs of 100 decisions and more, and the longest.
    long: u64,
    longest: usize,
}

impl fmt::Display for Counts {
    fn fmt(&self, out: &mut fmt::Formatter<'_>) -> fmt::Result {
        let Counts { tables, refused, runs, states, judged, walked, steps, verdicts, .. } = self;
        write!(out, "tables {tables}, refused tables {refused}, complete runs {runs} ")?;
        write!(out, "(verdicts 0 to 5: {verdicts:?}), states {states}, ")?;
        write!(out, "judge calls {judged}, first and next calls {walked}, ")?;
        write!(out, "steps through all runs {steps}")?;
        if self.longest == 0 {
            return Ok(());
        }
        write!(out, ", runs of 100 decisions and more {}, longest {}", self.long, self.longest)
    }
}

/// One disagreement: the input, and what each side says.
pub struct Difference {
    call: Call,
    table: Vec<u8>,
    list: Vec<u8>,
    length: usize,
    oracle: String,
    plain: String,
    archive: String,
}

impl fmt::Display for Difference {
    fn fmt(&self, out: &mut fmt::Formatter<'_>) -> fmt::Result {
        let Difference { call, table, list, length, oracle, plain, archive } = self;
        writeln!(out, "{call:?}: table {} list {} length {length}", hex(table), hex(list))?;
        writeln!(out, "  oracle {oracle}")?;
        writeln!(out, "  plain  {plain}")?;
        write!(out, "  archive {archive}")
    }
}

/// Agreement, or where it ends.
type Agreed = Result<(), Box<Difference>>;

/// An answer, and what is written.
type Said = (Answer, Vec<u8>);

pub struct Comparison {
    oracle: Oracle,
    plain: Plain,
    pub archive: Archive,
    pub counts: Counts,
    of_oracle: Vec<u8>,
}

/// A table of which every run is looked at, and its complete lists in order.
struct Tree<'a> {
    table: &'a [u8],
    /// The sheet's length.
    length: usize,
    runs: Vec<Vec<u8>>,
}

impl Comparison {
    /// A slip is a mistake in the plain interpreter.
    pub fn new(slip: Slip) -> Comparison {
        Comparison {
            oracle: Oracle::new(),
            plain: Plain { slip },
            archive: Archive::default(),
            counts: Counts::default(),
            of_oracle: Vec::new(),
        }
    }

    /// A mistake in what the archive is expected to say.
    pub fn expecting(call: Call, mistake: Mistake) -> Comparison {
        let mut comparison = Comparison::new(Slip::None);
        comparison.archive.mistake = Some((call, mistake));
        comparison
    }

    // ===== whole calls =====

    fn judge(&mut self, table: &[u8], list: &[u8], length: usize) -> Agreed {
        self.counts.judged += 1;
        let oracle = self.oracle.judge(table, list, length);
        let plain = self.plain.judge(table, list, length);
        self.same(Call::Judge, table, list, length, oracle, plain)
    }

    /// First or next, with each kind of room: exact, one short, none, more.
    fn walk(&mut self, call: Call, table: &[u8], list: &[u8]) -> Agreed {
        let found = match call {
            Call::First => self.oracle.first_list(table),
            _ => self.oracle.next_list(table, list),
        };
        let length = found.as_ref().map_or(0, Vec::len);
        let mut rooms = vec![length, length.saturating_sub(1), 0, length + 9];
        rooms.dedup();
        for room in rooms {
            self.counts.walked += 1;
            self.found_in_room(call, table, list, room, &found)?;
        }
        Ok(())
    }

    /// What first or next finds, handed over in a buffer with this room.
    fn found_in_room(
        &mut self,
        call: Call,
        table: &[u8],
        list: &[u8],
        room: usize,
        found: &Found,
    ) -> Agreed {
        let plain = match call {
            Call::First => self.plain.first(table, room),
            _ => self.plain.next(table, list, room),
        };
        self.same(call, table, list, room, handed_over(found, room), plain)
    }

    /// The oracle's side of a call against both others.
    fn same(
        &mut self,
        call: Call,
        table: &[u8],
        list: &[u8],
        length: usize,
        oracle: Said,
        plain: Said,
    ) -> Agreed {
        let expected = (oracle.0, &oracle.1[..]);
        let archive = self.archive.differs(call, (table, list), length, expected);
        if oracle == plain && archive.is_none() {
            return Ok(());
        }
        Err(Box::new(Difference {
            call,
            table: table.to_vec(),
            list: list.to_vec(),
            length,
            oracle: said(oracle.0, &oracle.1),
            plain: said(plain.0, &plain.1),
            archive: archive.unwrap_or("no difference".into()),
        }))
    }

    // ===== every state of a run =====

    /// A state in the middle of a run, its sheet and what is allowed in it.
    fn same_state(&mut self, run: &mut Run, world: &mut World) -> bool {
        self.counts.states += 1;
        run.sheet(&mut self.of_oracle);
        if self.of_oracle != world.sheet_bytes() || run.allowed() != world.allowed_mask() {
            return false;
        }
        // What is not allowed is refused, and changes nothing: the run goes on
        // from here, so a change would show later.
        let forbidden = (0..=7).chain([255]).filter(|d| *d > 7 || run.allowed() >> d & 1 == 0);
        for decision in forbidden.collect::<Vec<u8>>() {
            if run.decide(decision) != Step::Refused || world.step(decision) != Step::Refused {
                return false;
            }
        }
        true
    }

    /// One decision on both sides. `None` if they do not agree.
    fn same_step(&mut self, run: &mut Run, world: &mut World, decision: u8) -> Option<Step> {
        let left = world.falling();
        let step = run.decide(decision);
        if world.step(decision) != step {
            return None;
        }
        match step {
            Step::Wants if world.falling() >= left => {
                eprintln!("the falling number does not fall");
                std::process::exit(3);
            }
            Step::Wants if self.same_state(run, world) => Some(step),
            Step::Wants | Step::Refused => None,
            Step::Verdict(answer) => {
                self.counts.states += 1;
                self.counts.runs += 1;
                self.counts.verdicts[answer.number as usize] += 1;
                run.sheet(&mut self.of_oracle);
                (self.of_oracle == world.sheet_bytes()).then_some(step)
            }
        }
    }

    /// The archive's judge where the two have just been found to agree: at a
    /// front part, or at a list's end.
    fn front(&mut self, table: &[u8], list: &[u8], step: Step) -> Agreed {
        let answer = match step {
            Step::Verdict(answer) => answer,
            Step::Wants | Step::Refused => Answer::of(6),
        };
        let (length, expected) = (self.of_oracle.len(), (answer, &self.of_oracle[..]));
        match self.archive.differs(Call::Front, (table, list), length, expected) {
            None => Ok(()),
            Some(archive) => Err(Box::new(Difference {
                call: Call::Front,
                table: table.to_vec(),
                list: list.to_vec(),
                length,
                oracle: said(answer, &self.of_oracle),
                plain: "no difference".into(),
                archive,
            })),
        }
    }

    /// The two parted at the end of this list.
    fn parted(&mut self, table: &[u8], list: &[u8], length: usize) -> Box<Difference> {
        match self.judge(table, list, length) {
            Err(difference) => difference,
            Ok(()) => {
                let (table, list) = (hex(table), hex(list));
                eprintln!("parted only from state to state: table {table} list {list}");
                std::process::exit(3);
            }
        }
    }

    /// Every run of a table, each at every front part.
    fn explore(
        &mut self,
        run: &mut Run,
        world: &World,
        front: &mut Vec<u8>,
        tree: &mut Tree,
    ) -> Agreed {
        for (nth, decision) in members(world.allowed_mask()).enumerate() {
            if nth > 0 {
                run.restart();
                front.iter().for_each(|decision| {
                    run.decide(*decision);
                });
            }
            front.push(decision);
            let mut next = world.clone();
            let Some(step) = self.same_step(run, &mut next, decision) else {
                return Err(self.parted(tree.table, front, tree.length));
            };
            self.front(tree.table, front, step)?;
            match step {
                Step::Verdict(_) => tree.runs.push(front.clone()),
                Step::Wants | Step::Refused => self.explore(run, &next, front, tree)?,
            }
            front.pop();
        }
        Ok(())
    }

    fn all_runs(&mut self, table: &[u8], runs: &mut Run) -> Agreed {
        self.counts.tables += 1;
        let (read, world) = match (Table::read(table), plain::read(table, self.plain.slip)) {
            (Ok(read), Ok(world)) => (read, world),
            _ => return self.judge(table, &[], 4000),
        };
        let mut tree = Tree { table, length: read.sheet_length(), runs: Vec::new() };
        runs.load(read);
        if !self.same_state(runs, &mut world.clone()) {
            return Err(self.parted(table, &[], tree.length));
        }
        self.front(table, &[], Step::Wants)?;
        self.explore(runs, &world, &mut Vec::new(), &mut tree)?;
        self.step_through(&tree)?;
        self.some_calls(&tree)
    }

    /// First and next give the runs that the search met: each once, in rising
    /// order, then 7. Every second list just fits.
    fn step_through(&mut self, tree: &Tree) -> Agreed {
        assert!(tree.runs.is_sorted_by(|one, other| one < other), "the search goes upwards");
        for (number, list) in tree.runs.iter().enumerate() {
            self.counts.steps += 1;
            let room = if number % 2 == 0 { list.len() } else { 600 };
            let found = Ok(list.clone());
            match number.checked_sub(1) {
                None => self.found_in_room(Call::First, tree.table, &[], room, &found)?,
                Some(before) => {
                    let before = &tree.runs[before];
                    self.found_in_room(Call::Step, tree.table, before, room, &found)?;
                }
            }
        }
        self.counts.steps += 1;
        let last = tree.runs.last().expect("every table has a run");
        self.found_in_room(Call::Step, tree.table, last, 600, &Err(Answer::of(7)))
    }

    /// Whole calls on some lists of a table: the first, the second, and then
    /// ever fewer.
    fn some_calls(&mut self, tree: &Tree) -> Agreed {
        let Tree { table, length, runs } = tree;
        self.walk(Call::First, table, &[])?;
        for (number, list) in runs.iter().enumerate() {
            if !(number + 1).is_power_of_two() {
                continue;
            }
            let (cut, surplus) = (&list[..list.len() - 1], [&list[..], &[0]].concat());
            self.judge(table, list, *length)?;
            self.judge(table, cut, *length)?;
            self.judge(table, &surplus, *length)?;
            self.judge(table, list, length - 1)?;
            self.judge(table, list, length + 9)?;
            self.walk(Call::Next, table, list)?;
            self.walk(Call::Next, table, cut)?;
            self.walk(Call::Next, table, &surplus)?;
        }
        Ok(())
    }

    // ===== the comparisons =====

    /// All small tables of some families, up to `most` operations in all.
    pub fn small(&mut self, most: usize, name: &str) -> Agreed {
        let mut runs = Run::new();
        let families = families(name);
        for count in 0..=most {
            for family in &families {
                family.each_table(count, &mut |table: &[u8]| self.all_runs(table, &mut runs))?;
            }
        }
        Ok(())
    }

    /// Random tables and lists, and damaged copies of both.
    pub fn random(&mut self, seed: u64, count: u64) -> Agreed {
        let mut chance = Chance::new(seed);
        let mut runs = Run::new();
        for _ in 0..count {
            self.random_case(&mut chance, &mut runs).map_err(|found| self.shrunk(found))?;
        }
        Ok(())
    }

    fn random_case(&mut self, chance: &mut Chance, runs: &mut Run) -> Agreed {
        let table = random::table(chance);
        self.counts.tables += 1;
        let (Ok(read), Ok(world)) = (Table::read(&table), plain::read(&table, self.plain.slip))
        else {
            return self.judge(&table, &[], 4000);
        };
        let needed = read.sheet_length();
        runs.load(read);
        let list = random::list(chance, &world);
        self.along(&table, &list, runs, world)?;
        // The depth-first first and next replay each front part: short lists only.
        let short = list.len() <= 60;
        for list in random::lists_around(chance, &list) {
            let length = chance.pick(&[needed, needed, needed, needed + 1, 1766, needed - 1, 0]);
            self.judge(&table, &list, length)?;
            if short {
                self.walk(Call::Next, &table, &list)?;
            }
        }
        if short {
            self.walk(Call::First, &table, &[])?;
        }
        for _ in 0..3 {
            let damaged = random::damaged_table(chance, &table);
            let length = chance.pick(&[1766, 1766, 0]);
            self.judge(&damaged, &list, length)?;
            if Table::read(&damaged).is_err() {
                self.counts.refused += 1;
                self.walk(Call::First, &damaged, &[])?;
                self.walk(Call::Next, &damaged, &list)?;
            }
        }
        Ok(())
    }

    /// The tables at the limits: a few runs of each, the smallest and the
    /// largest among them.
    pub fn limits(&mut self) -> Agreed {
        let mut runs = Run::new();
        for (about, table) in random::limits() {
            self.counts.tables += 1;
            let world = plain::read(&table, self.plain.slip).expect("a good table");
            let first = self.oracle.first_list(&table).expect("a good table");
            println!("{about}: table {} bytes, first list {}", table.len(), first.len());
            self.walk(Call::First, &table, &[])?;
            let mut chance = Chance::new(3);
            let mut lists = vec![first, random::largest_list(&world)];
            lists.extend((0..20).map(|_| random::list(&mut chance, &world)));
            for list in lists {
                let needed = world.sheet_bytes().len();
                runs.load(Table::read(&table).expect("a good table"));
                self.along(&table, &list, &mut runs, world.clone())?;
                for around in random::lists_around(&mut chance, &list) {
                    self.judge(&table, &around, needed)?;
                    self.judge(&table, &around, needed - 1)?;
                    self.walk(Call::Next, &table, &around)?;
                }
            }
        }
        Ok(())
    }

    /// One list, state by state.
    fn along(&mut self, table: &[u8], list: &[u8], run: &mut Run, mut world: World) -> Agreed {
        self.counts.long += (list.len() >= 100) as u64;
        self.counts.longest = self.counts.longest.max(list.len());
        let length = world.sheet_bytes().len();
        if !self.same_state(run, &mut world) {
            return Err(self.parted(table, &[], length));
        }
        self.front(table, &[], Step::Wants)?;
        for (at, decision) in list.iter().enumerate() {
            let Some(step) = self.same_step(run, &mut world, *decision) else {
                return Err(self.parted(table, &list[..=at], length));
            };
            self.front(table, &list[..=at], step)?;
        }
        Ok(())
    }

    // ===== making a disagreement small =====

    /// Leaves out bytes for as long as the two still disagree.
    fn shrunk(&mut self, found: Box<Difference>) -> Box<Difference> {
        let mut best = found;
        while let Some(smaller) = self.smaller(&best) {
            best = smaller;
        }
        best
    }

    fn smaller(&mut self, than: &Difference) -> Option<Box<Difference>> {
        let Difference { table, list, .. } = than;
        for cut in [40, 12, 4, 3, 2, 1] {
            for at in 0..(table.len() + 1).saturating_sub(cut) {
                let shorter = [&table[..at], &table[at + cut..]].concat();
                if let Err(found) = self.again(than, &shorter, list) {
                    return Some(found);
                }
            }
            for at in 0..(list.len() + 1).saturating_sub(cut) {
                let shorter = [&list[..at], &list[at + cut..]].concat();
                if let Err(found) = self.again(than, table, &shorter) {
                    return Some(found);
                }
            }
        }
        None
    }

    /// The call of a disagreement, with another input.
    fn again(&mut self, than: &Difference, table: &[u8], list: &[u8]) -> Agreed {
        match than.call {
            Call::Judge => self.judge(table, list, than.length),
            Call::Front => {
                let length = Table::read(table).map_or(0, |table| table.sheet_length());
                self.judge(table, list, length)
            }
            Call::First => self.walk(Call::First, table, &[]),
            Call::Next | Call::Step => self.walk(Call::Next, table, list),
        }
    }
}

fn members(mask: u8) -> impl Iterator<Item = u8> {
    (0..8).filter(move |place| mask >> place & 1 == 1)
}

fn said(answer: Answer, bytes: &[u8]) -> String {
    format!("{} | {}", answer.text(), hex(bytes))
}
