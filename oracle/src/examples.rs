//! The paper's examples a to j and the small vectors beyond them.

use crate::answer::Answer;
use crate::judge::{each_run, Oracle};
use crate::plain::{self, Plain, PlainRun, Slip};
use crate::text::{hex, run_line, unhex};

/// `fields` are number, thread, position, object, other; a missing one is not
/// said. `sheet` names bytes that must stand at an offset.
struct Example {
    name: &'static str,
    table: &'static str,
    list: &'static str,
    fields: &'static str,
    sheet: &'static [(usize, &'static str)],
}

const fn example(
    name: &'static str,
    table: &'static str,
    list: &'static str,
    fields: &'static str,
    sheet: &'static [(usize, &'static str)],
) -> Example {
    Example { name, table, list, fields, sheet }
}

const GUARDED: &str = "10 00 16 20 30 00 46 01 47 01 32 00 20 30 00 46 01 47 01 32 00";
const STALE: &str = "12 10 00 13 00 00 20 3C 02 39 00 01 20 3C 02";
const STALE_BLOCKED: &str = "12 10 00 13 00 00 20 3C 02 39 00 01 30 01 20 3C 02 3A 00";
const OWN_STALE: &str = "12 10 00 13 00 00 20 3C 02 39 00 01 3A 00 20 3C 02";
const QUESTION: &str = "13 00 01 20 3D 00 3D 00";
const NOTIFIED: &str = "12 10 00 20 39 00 01 20 3A 00";
const J: [u8; 6] = [0x13, 0, 1, 0x20, 0x3D, 0];

// Offsets: a thread record is 17 bytes; state, position, phase, answer are its
// bytes 1 to 4.
const EXAMPLES: [Example; 23] = [
    example("a", "20", "00", "0", &[(0, "8003"), (2, "000000000000000000000000000000")]),
    example("b", "", "", "21", &[]),
    example("c", "16 20 46 00 47 00 20 46 00 47 00", "00 01", "1 1 0 0 0", &[]),
    example("d", GUARDED, "00 00 01 01", "0", &[(22, "0101")]),
    example("e", "10 00 20 30 00 20 31 00", "01 00 00", "2", &[]),
    example("e, clean", "10 00 20 30 00 20 31 00", "00 00 01 01", "0", &[(21, "00")]),
    example("f", "15 20", "00", "3 - - 0", &[]),
    example("f, clean", "15 20 41 00 40 00 41 00", "00 00 00 00", "0", &[]),
    example("g", "14 20 3E 00 20 3F 00", "01 00 00 01", "0", &[]),
    example("h", "11 20 33 00 33 00 37 00 34 00", "00 00 00 00", "0", &[]),
    example("h, misuse", "11 20 37 00", "00", "4 0 0 0", &[]),
    example("i", "13 00 00 20 3C 00 20 3D 00 20 3D 00", "01 02 00 00 01 02", "4 2", &[]),
    example("question wanted", QUESTION, "00", "6", &[(0, "80000000")]),
    example("spurious", QUESTION, "00 01", "6", &[(0, "80000100"), (17, "930001")]),
    example("stored unpark kept", STALE, "00 01 01 00", "6", &[(0, "80010101"), (34, "9200")]),
    example("used up", STALE, "00 01 01 00 00", "6", &[(0, "80000103"), (34, "920100FF")]),
    example("stale waiter left", STALE, "00 01 01 00 00 00", "0", &[(34, "920100FF")]),
    example("stale, blocked", STALE_BLOCKED, "00 01 01 00 00 00 01 00", "4 0 2 1", &[]),
    example("parked", "12 10 00 20 39 00 01", "00 00", "2 0 0 255", &[(0, "80020002")]),
    example("unparked", NOTIFIED, "00 00 01 01", "6", &[(0, "80000002")]),
    example("retaking", NOTIFIED, "00 00 01 01 00", "6", &[(0, "80000003")]),
    example("own stale entry", OWN_STALE, "00 01 01 00 00 00 00", "0", &[(34, "9200")]),
    example("own mutex", "10 00 20 30 00 30 00", "00 00", "2 0 1 0", &[]),
];

impl Example {
    fn holds(&self, (answer, sheet): &(Answer, Vec<u8>)) -> bool {
        let given = [answer.number, answer.thread, answer.position, answer.object, answer.other];
        let fields = self.fields.split(' ').zip(given);
        let mut said = fields.filter(|(field, _)| *field != "-");
        let mut bytes = self.sheet.iter().map(|(at, want)| {
            let want = unhex(want).expect("hexadecimal");
            sheet.get(*at..*at + want.len()) == Some(&want)
        });
        said.all(|(field, given)| field == given.to_string()) && bytes.all(|good| good)
    }
}

/// Prints what does not agree, then how many do. True if all do.
pub fn examples() -> bool {
    let mut oracle = Oracle::new();
    let plain = Plain { slip: Slip::None };
    let mut good = [0, 0];
    for example in &EXAMPLES {
        let table = unhex(example.table).expect("hexadecimal");
        let list = unhex(example.list).expect("hexadecimal");
        let answers = [oracle.judge(&table, &list, 1766), plain.judge(&table, &list, 1766)];
        for (engine, answer) in answers.iter().enumerate() {
            if example.holds(answer) {
                good[engine] += 1;
            } else {
                let (answer, sheet) = (answer.0.text(), hex(&answer.1));
                println!("engine {engine}, {}: {answer} {sheet}", example.name);
            }
        }
    }
    for (engine, lines) in example_j(&mut oracle).iter().enumerate() {
        if lines == &["2 00 00", "0 00 01 00"] {
            good[engine] += 1;
        } else {
            println!("engine {engine}, j: {lines:?}");
        }
    }
    let all = EXAMPLES.len() + 1;
    println!("examples: {all}; the oracle agrees on {}, the plain engine on {}", good[0], good[1]);
    good == [all, all]
}

/// The name, table and list of each example; of j the two lists.
pub fn tables_and_lists() -> Vec<(&'static str, Vec<u8>, Vec<u8>)> {
    let bytes = |text: &str| unhex(text).expect("hexadecimal");
    let given = EXAMPLES.iter().map(|of| (of.name, bytes(of.table), bytes(of.list)));
    let j = [vec![0, 0], vec![0, 1, 0]].map(|list| ("j", J.to_vec(), list));
    given.chain(j).collect()
}

/// What the program `runs` prints for example j, by each engine.
fn example_j(oracle: &mut Oracle) -> [Vec<String>; 2] {
    let mut printed = [Vec::new(), Vec::new()];
    let [of_oracle, of_plain] = &mut printed;
    let run = oracle.open(&J).expect("a good table");
    each_run(run, &mut |list, answer| of_oracle.push(run_line(answer.number, list)));
    let world = plain::read(&J, Slip::None).expect("a good table");
    let mut run = PlainRun::new(world);
    each_run(&mut run, &mut |list, answer| of_plain.push(run_line(answer.number, list)));
    printed
}
