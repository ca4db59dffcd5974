//! The report of a sheet, by its definition.

use crate::bench::{Bench, Refusal, Verdict};
use crate::proved::{Format, in_format};
use crate::radix::{Number, Radix};
use std::fmt::Write;

/// A fault: its number, slip and byte, and the cause of a pattern that is no number.
struct Fault {
    number: u8,
    slip: usize,
    byte: usize,
    cause: Option<u8>,
}

impl Fault {
    fn line(&self) -> String {
        let mut line = format!("F {} {} {}", self.number, self.slip, self.byte);
        if let Some(cause) = self.cause {
            write!(line, " {cause}").unwrap();
        }
        line.push('\n');
        line
    }
}

/// The fields of one slip.
#[derive(Default)]
struct Slip {
    zero: Option<Number>,
    order: Option<u8>,
    claim: Option<Number>,
    tolerance: Option<Number>,
}

pub fn report(sheet: &[u8]) -> String {
    let fault = |number, byte| Fault { number, slip: 0, byte, cause: None }.line();
    if !(2..=32768).contains(&sheet.len()) {
        return fault(13, 0);
    }
    let Some(format) = Format::of_number(sheet[0]) else {
        return fault(14, 0);
    };
    if !(1..=64).contains(&sheet[1]) {
        return fault(15, 1);
    }
    in_format!(format, R => report_slips::<R>(sheet))
}

fn report_slips<R: Radix>(sheet: &[u8]) -> String {
    let mut bench = Bench::<R>::new(sheet[1]);
    let mut text = String::new();
    let mut at = 2;
    let mut slips = 0;
    while at < sheet.len() {
        match read_slip::<R>(sheet, at, slips + 1) {
            Err(fault) => return text + &fault.line(),
            Ok((slip, end)) => {
                text += &work_slip(&mut bench, &slip);
                at = end;
                slips += 1;
            }
        }
    }
    text + &format!("end {slips}\n")
}

fn read_slip<R: Radix>(sheet: &[u8], map_at: usize, number: usize) -> Result<(Slip, usize), Fault> {
    let fault = |fault, byte, cause| Fault { number: fault, slip: number, byte, cause };
    let map = sheet[map_at];
    if ![0, 1, 2, 3, 14, 15].contains(&map) {
        return Err(fault(16, map_at, None));
    }
    let lengths = [8, 1, 8, 8];
    let length: usize = (0..4).filter(|bit| map >> bit & 1 == 1).map(|bit| lengths[bit]).sum();
    let end = map_at + 1 + length;
    if end > sheet.len() {
        return Err(fault(19, map_at, None));
    }
    let mut slip = Slip::default();
    let mut at = map_at + 1;
    for (bit, length) in lengths.into_iter().enumerate() {
        if map >> bit & 1 == 0 {
            continue;
        }
        if bit == 1 {
            slip.order = Some(sheet[at]);
        } else {
            let pattern = sheet[at..at + 8].try_into().unwrap();
            let number = R::admit(pattern).map_err(|cause| fault(17, at, Some(cause)))?;
            match bit {
                0 => slip.zero = Some(number),
                2 => slip.claim = Some(number),
                _ => slip.tolerance = Some(number),
            }
        }
        at += length;
    }
    Ok((slip, end))
}

fn refusal_line((number, details): Refusal) -> String {
    let mut line = format!("R {number}");
    for detail in details {
        write!(line, " {detail}").unwrap();
    }
    line + "\n"
}

fn hexadecimal<R: Radix>(a: Number) -> String {
    format!("{:016X}", u64::from_be_bytes(R::pattern(a)))
}

fn work_slip<R: Radix>(bench: &mut Bench<R>, slip: &Slip) -> String {
    let mut text = String::new();
    if let Some(zero) = slip.zero {
        text += &bench.add(zero).map_or_else(refusal_line, |number| format!("Z {number}\n"));
    }
    match (slip.order, slip.claim, slip.tolerance) {
        (Some(k), Some(claim), Some(tolerance)) => {
            let word = |verdict| match verdict {
                Verdict::Right => "right",
                Verdict::Wrong => "wrong",
                Verdict::Open => "open",
            };
            text += &bench.examine(k, claim, tolerance).map_or_else(refusal_line, |v| format!("M {k} {}\n", word(v)));
        }
        (Some(k), _, _) => {
            let line = |(v, b)| format!("K {k} {} {}\n", hexadecimal::<R>(v), hexadecimal::<R>(b));
            text += &bench.ask(k).map_or_else(refusal_line, line);
        }
        _ if slip.zero.is_none() => {
            bench.clear();
            text += "C\n";
        }
        _ => {}
    }
    text
}
