//! The proved library against the plain implementation: operations on patterns, whole sheets, and numbers that name no format.

use crate::proved::{self, Answer, FORMATS, Format, Operation, in_format};
use crate::radix::{Number, Radix, at_most, lift, product_split, sum_split};
use crate::random::{Random, any_pattern, any_sheet, beside};
use crate::sheet;
use std::collections::BTreeMap;

/// How many agreed and how many did not.
#[derive(Default, Clone, Copy)]
pub struct Score {
    agree: u64,
    differ: u64,
}

impl Score {
    fn note(&mut self, agrees: bool) {
        if agrees { self.agree += 1 } else { self.differ += 1 }
    }
}

/// At most so many disagreements of a kind are printed.
const SHOWN: u64 = 10;

fn answer<R: Radix>(operation: Operation, a: u64, b: u64) -> Answer {
    let none = |outcome| Answer { outcome, main: 0, error: 0 };
    let bits = |x: Number| u64::from_be_bytes(R::pattern(x));
    let number = |x: Option<Number>| x.map_or(none(4), |x| Answer { outcome: 0, main: bits(x), error: 0 });
    let parts = |p: Option<(Number, Number)>| p.map_or(none(4), |(x, y)| Answer { outcome: 0, main: bits(x), error: bits(y) });
    let x = match R::admit(a.to_be_bytes()) {
        Ok(x) => x,
        Err(cause) => return none(cause),
    };
    match operation {
        Operation::Lift => return number(lift::<R>(x, b as u8)),
        Operation::Admission => return number(Some(x)),
        _ => {}
    }
    let y = match R::admit(b.to_be_bytes()) {
        Ok(y) => y,
        Err(cause) => return none(cause),
    };
    match operation {
        Operation::SumSplit => parts(sum_split::<R>(x, y)),
        Operation::ProductSplit => parts(product_split::<R>(x, y)),
        _ => Answer { outcome: 0, main: at_most(x, y) as u64, error: 0 },
    }
}

const OPERATIONS: [Operation; 5] =
    [Operation::SumSplit, Operation::ProductSplit, Operation::Lift, Operation::Admission, Operation::Comparison];

/// The name of an outcome, for the counts.
fn outcome_name(outcome: u8) -> &'static str {
    ["answered", "not admitted (1)", "not admitted (2)", "not admitted (3)", "refused"][outcome as usize]
}

/// A first and a second operand; the second one of a lift is a count and no pattern.
fn any_operands<R: Radix>(operation: Operation, random: &mut Random) -> (u64, u64) {
    let a = any_pattern::<R>(random);
    let b = if operation == Operation::Lift { random.below(193) } else { beside::<R>(random, a) };
    (a, b)
}

/// Compares an operation of a format on so many random operands. Answers how many differ.
fn operation_in<R: Radix>(format: Format, operation: Operation, seed: u64, count: u64) -> u64 {
    let mut random = Random(seed ^ (format.number() as u64) << 8 ^ (operation as u64) << 16);
    let mut score = Score::default();
    let mut outcomes = BTreeMap::<u8, u64>::new();
    for _ in 0..count {
        let (a, b) = any_operands::<R>(operation, &mut random);
        let (expected, got) = (answer::<R>(operation, a, b), proved::operate(format, operation, a, b));
        score.note(expected == got);
        *outcomes.entry(expected.outcome).or_default() += 1;
        if expected != got && score.differ <= SHOWN {
            println!("differ: {format:?} {operation:?} {a:016X} {b:016X}: plain {expected:X?}, proved {got:X?}");
        }
    }
    let counts: Vec<_> = outcomes.iter().map(|(&outcome, n)| format!("{n} {}", outcome_name(outcome))).collect();
    println!("{format:?} {operation:?}: {} agree, {} differ ({})", score.agree, score.differ, counts.join(", "));
    score.differ
}

/// Compares each operation of each format on so many random operands. Answers how many differ.
pub fn operands(seed: u64, count: u64) -> u64 {
    let mut differ = 0;
    for format in FORMATS {
        for operation in OPERATIONS {
            differ += in_format!(format, R => operation_in::<R>(format, operation, seed, count));
        }
    }
    differ
}

/// Some numbers that name no format, and how often each operation and a card are called by each.
const NAMELESS: [u8; 5] = [0, 3, 8, 9, 255];
const NAMELESS_CALLS: usize = 100;

/// An operation by a number that names no format answers 5 and zeros, whatever its operands are.
fn operate_nameless(number: u8, operation: Operation, random: &mut Random, score: &mut Score) {
    let (a, b) = in_format!(random.choose(&FORMATS), R => any_operands::<R>(operation, random));
    let got = proved::operate_by_number(number, operation, a, b);
    let agrees = got == Answer { outcome: 5, main: 0, error: 0 };
    score.note(agrees);
    if !agrees && score.differ <= SHOWN {
        println!("differ: no format {number} {operation:?} {a:016X} {b:016X}: proved {got:X?}");
    }
}

/// A card by a number that names no format leaves the answers as they are.
fn work_nameless(number: u8, random: &mut Random, score: &mut Score) {
    let count = random.below(5);
    let zeros: Vec<u64> = in_format!(random.choose(&FORMATS), R => (0..count).map(|_| any_pattern::<R>(random)).collect());
    let before: Vec<[u64; 2]> = (0..random.below(7)).map(|_| [random.next(), random.next()]).collect();
    let mut answers = before.clone();
    proved::card_by_number(number, &zeros, &mut answers);
    score.note(answers == before);
    if answers != before && score.differ <= SHOWN {
        println!("differ: no format {number}, a card of {zeros:016X?}: before {before:016X?}, proved {answers:016X?}");
    }
}

/// Compares calls by numbers that name no format with what is defined for them. Answers how many differ.
pub fn nameless(seed: u64) -> u64 {
    let mut random = Random(seed);
    let mut score = Score::default();
    for number in [NAMELESS; NAMELESS_CALLS].concat() {
        for operation in OPERATIONS {
            operate_nameless(number, operation, &mut random, &mut score);
        }
        work_nameless(number, &mut random, &mut score);
    }
    println!("numbers that name no format: {} agree, {} differ", score.agree, score.differ);
    score.differ
}

/// Counts the lines of a report by what they say.
fn count_lines(report: &str, counts: &mut BTreeMap<String, u64>) {
    for line in report.lines() {
        let words: Vec<_> = line.split(' ').collect();
        let kind = match words[0] {
            "M" => format!("M {}", words[2]),
            "R" | "F" => format!("{} {}", words[0], words[1]),
            first => first.to_string(),
        };
        *counts.entry(kind).or_default() += 1;
    }
}

/// Whether a buffer of so many bytes has as much of a report as there is room for, and is as it was past that, and the length of the whole is
/// answered.
fn fills_buffer(sheet: &[u8], report: &[u8], room: usize) -> bool {
    let mut buffer = vec![0xa5; room];
    let length = proved::report_into(sheet, &mut buffer);
    let fitting = report.len().min(room);
    let mut expected = vec![0xa5; room];
    expected[..fitting].copy_from_slice(&report[..fitting]);
    length == report.len() && buffer == expected
}

/// Rooms for a report of so many bytes: none, some that is too short, and one beside its length.
fn rooms(length: usize, random: &mut Random) -> [usize; 3] {
    [0, random.below(length as u64) as usize, (length + 3).saturating_sub(random.below(6) as usize)]
}

/// Compares the reports of so many random sheets. Answers how many differ.
pub fn sheets(seed: u64, count: u64) -> u64 {
    let mut random = Random(seed);
    let mut score = Score::default();
    let mut lines = BTreeMap::new();
    let mut buffer = vec![];
    for _ in 0..count {
        let longest = if random.one_in(12) { 160 } else { 24 };
        let sheet = any_sheet(&mut random, longest);
        let expected = sheet::report(&sheet);
        let got = proved::report(&sheet, &mut buffer);
        let fills = rooms(expected.len(), &mut random).iter().all(|&room| fills_buffer(&sheet, expected.as_bytes(), room));
        let agrees = expected.as_bytes() == got && fills;
        score.note(agrees);
        count_lines(&expected, &mut lines);
        if !agrees && score.differ <= SHOWN {
            let hexadecimal: String = sheet.iter().map(|byte| format!("{byte:02X}")).collect();
            println!("differ: sheet {hexadecimal}\nplain:\n{expected}proved:\n{}", String::from_utf8_lossy(got));
        }
    }
    println!("sheets: {} agree, {} differ", score.agree, score.differ);
    let kinds: Vec<_> = lines.iter().map(|(kind, n)| format!("{n} {kind}")).collect();
    println!("lines of the reports: {}", kinds.join(", "));
    score.differ
}
