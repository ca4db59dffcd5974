//! Compares the proved library with a plain implementation, and measures its speed. run.sh says how it is built and called.

mod bench;
mod compare;
mod passes;
mod proved;
mod radix;
mod random;
mod sheet;
mod speed;

use crate::proved::Format;
use std::process::ExitCode;

/// The number after a name on the command line, or else the given one.
fn option(arguments: &[String], name: &str, otherwise: u64) -> u64 {
    let at = arguments.iter().position(|word| word == name);
    at.map_or(otherwise, |at| arguments[at + 1].parse().expect("a number"))
}

fn main() -> ExitCode {
    let arguments: Vec<String> = std::env::args().skip(1).collect();
    let seed = option(&arguments, "--seed", 1);
    match arguments.first().map(String::as_str) {
        Some("compare") => {
            let (operands, sheets) = (option(&arguments, "--operands", 200_000), option(&arguments, "--sheets", 20_000));
            println!("seed {seed}, {operands} operands for each operation and format, {sheets} sheets");
            let differ = compare::operands(seed, operands) + compare::nameless(seed) + compare::sheets(seed, sheets);
            println!("{differ} differ");
            if differ == 0 { ExitCode::SUCCESS } else { ExitCode::FAILURE }
        }
        Some("speed") => {
            speed::measure(seed, option(&arguments, "--repetitions", 300) as usize);
            ExitCode::SUCCESS
        }
        Some("card") => {
            let (number, zeros) = (option(&arguments, "--format", 1), option(&arguments, "--zeros", 64));
            let format = u8::try_from(number).ok().and_then(Format::of_number).expect("the number of a format");
            speed::work_card(seed, format, zeros as usize, option(&arguments, "--times", 10_000) as usize);
            ExitCode::SUCCESS
        }
        Some("decimal-cards") => {
            speed::print_decimal_cards(seed);
            ExitCode::SUCCESS
        }
        _ => {
            println!("compare [--seed S] [--operands N] [--sheets N] | speed [--seed S] [--repetitions N]");
            println!("card [--seed S] [--format 1, 2 or 4 to 7] [--zeros N] [--times T] | decimal-cards [--seed S]");
            ExitCode::FAILURE
        }
    }
}
