//! How long cards and sheets take, in the proved library and in other forms. Every form is timed in turn, so many rounds of it, and the
//! shortest time of each counts: what else runs on the machine only makes times longer.

use crate::bench::Bench;
use crate::passes;
use crate::proved::{self, Format, Operation, in_format};
use crate::radix::Radix;
use crate::random::{Random, decimal_pattern, exponent_of_ten, ten};
use std::hint::black_box;
use std::io::Write;
use std::process::{Command, Stdio};
use std::time::Instant;

unsafe extern "C" {
    fn c_two_passes(zeros: *const f64, n: usize, times: usize, answers: *mut [f64; 2]) -> usize;
    fn c_two_passes_tested(zeros: *const f64, n: usize, times: usize, answers: *mut [f64; 2]) -> usize;
    fn c_two_passes_tested_fma(zeros: *const f64, n: usize, times: usize, answers: *mut [f64; 2]) -> usize;
    fn c_same_form(zeros: *const f64, n: usize, times: usize, answers: *mut [f64; 2]) -> usize;
    fn c_double_double(zeros: *const f64, n: usize, times: usize, answers: *mut [f64; 2]) -> usize;
    #[cfg(arb)]
    fn c_arb(zeros: *const f64, n: usize, times: usize, answers: *mut [f64; 2], bits: i64) -> usize;
}

type Answers = Vec<[f64; 2]>;

/// One way to work a card so many times.
struct Form {
    name: &'static str,
    work: Box<dyn Fn(&[f64], usize, &mut [[f64; 2]])>,
    // whether its values and bounds are those of the proved library, bit for bit
    same: bool,
}

fn proved_card(format: Format, zeros: &[f64], times: usize, answers: &mut [[f64; 2]]) {
    let patterns: Vec<u64> = zeros.iter().map(|x| x.to_bits()).collect();
    let mut bits = vec![[0; 2]; answers.len()];
    proved::cards(format, &patterns, times, &mut bits);
    for (answer, bits) in answers.iter_mut().zip(bits) {
        *answer = bits.map(f64::from_bits);
    }
}

type InC = unsafe extern "C" fn(*const f64, usize, usize, *mut [f64; 2]) -> usize;

fn in_c(name: &'static str, f: InC, same: bool) -> Form {
    let work = move |zeros: &[f64], times: usize, answers: &mut [[f64; 2]]| {
        assert_eq!(answers.len(), zeros.len() + 1);
        assert_eq!(unsafe { f(zeros.as_ptr(), zeros.len(), times, answers.as_mut_ptr()) }, zeros.len());
    };
    Form { name, work: Box::new(work), same }
}

fn in_rust(name: &'static str, f: fn(&[f64], usize, &mut [[f64; 2]])) -> Form {
    Form { name, work: Box::new(f), same: true }
}

#[cfg(arb)]
fn by_arb() -> Vec<Form> {
    let work = |zeros: &[f64], times: usize, answers: &mut [[f64; 2]]| {
        unsafe { c_arb(zeros.as_ptr(), zeros.len(), times, answers.as_mut_ptr(), 106) };
    };
    vec![Form { name: "Arb, product of roots, 106 bits", work: Box::new(work), same: false }]
}

#[cfg(not(arb))]
fn by_arb() -> Vec<Form> {
    vec![]
}

fn binary_forms() -> Vec<Form> {
    let mut forms = vec![
        in_rust("proved bench", |zeros, times, answers| proved_card(Format::Binary64, zeros, times, answers)),
        in_c("C, two passes with range tests", c_two_passes_tested, true),
        in_c("C, two passes without range tests", c_two_passes, true),
        in_rust("Rust, two passes with range tests", passes::tested),
        in_rust("Rust, two passes without range tests", passes::untested),
        in_c("C in the very same form", c_same_form, true),
        in_c("C, double-double in one pass, no bound", c_double_double, false),
    ];
    forms.extend(by_arb());
    if std::is_x86_feature_detected!("fma") && std::is_x86_feature_detected!("avx2") {
        forms.push(in_c("C, two passes with range tests, x86-64-v3 with fma", c_two_passes_tested_fma, true));
    }
    forms
}

/// The shortest time of a call in nanoseconds, for each of some calls that each work so many times at once.
fn shortest(repetitions: usize, times: usize, calls: &mut [Box<dyn FnMut(usize) + '_>]) -> Vec<f64> {
    let mut best = vec![f64::INFINITY; calls.len()];
    for _ in 0..repetitions {
        for (best, call) in best.iter_mut().zip(calls.iter_mut()) {
            let start = Instant::now();
            call(times);
            *best = best.min(start.elapsed().as_nanos() as f64 / times as f64);
        }
    }
    best
}

const SIZES: [usize; 3] = [10, 30, 64];

/// The head of a table that has a column for each size.
fn print_sizes() {
    println!("{:52} {:>19} {:>19} {:>19}", "", "n = 10", "n = 30", "n = 64");
}

/// A zero from -1 to 1, with all its bits random.
fn binary_zero(random: &mut Random) -> f64 {
    (random.next() >> 11) as f64 / (1u64 << 52) as f64 - 1.0
}

fn binary_card(seed: u64, n: usize) -> Vec<f64> {
    let mut random = Random(seed ^ n as u64);
    (0..n).map(|_| binary_zero(&mut random)).collect()
}

/// Whether the answers are as the proved library's: bit for bit, or else the values up to 10^-9 of the largest.
fn check(form: &Form, zeros: &[f64], expected: &Answers) {
    let mut answers = vec![[0.0; 2]; zeros.len() + 1];
    (form.work)(zeros, 1, &mut answers);
    let largest = expected.iter().map(|answer| answer[0].abs()).fold(0.0, f64::max);
    for (k, (got, want)) in answers.iter().zip(expected).enumerate() {
        let agrees = if form.same {
            got.map(|x| (x + 0.0).to_bits()) == want.map(|x| x.to_bits())
        } else {
            (got[0] - want[0]).abs() <= 1e-9 * largest
        };
        assert!(agrees, "{} differs at order {k}: {got:?}, {want:?}", form.name);
    }
}

fn measure_binary(seed: u64, repetitions: usize) {
    let forms = binary_forms();
    let mut table = vec![vec![]; forms.len()];
    let mut alone = vec![];
    for n in SIZES {
        let zeros = binary_card(seed, n);
        let patterns: Vec<u64> = zeros.iter().map(|x| x.to_bits()).collect();
        let mut expected = vec![[0.0; 2]; n + 1];
        proved_card(Format::Binary64, &zeros, 1, &mut expected);
        for form in &forms {
            check(form, &zeros, &expected);
        }
        let mut calls: Vec<Box<dyn FnMut(usize)>> = vec![];
        for form in &forms {
            let (zeros, mut answers) = (&zeros, vec![[0.0; 2]; n + 1]);
            calls.push(Box::new(move |times| (form.work)(black_box(zeros), times, black_box(&mut answers))));
        }
        calls.push(Box::new(|times| {
            proved::cards(Format::Binary64, black_box(&patterns), times, &mut []);
        }));
        let mut best = shortest(repetitions, 40_000 / (n * n), &mut calls);
        alone.push(best.pop().unwrap());
        for (row, time) in table.iter_mut().zip(best) {
            row.push(time);
        }
    }
    println!("\nBinary64, a card of n zeros and all orders: microseconds, and the proved bench's time as a multiple of it");
    print_sizes();
    for (form, times) in forms.iter().zip(&table) {
        let cells: Vec<_> = times.iter().zip(&table[0]).map(|(time, own)| format!("{:>11.2} {:>7.2}", time / 1000.0, own / time)).collect();
        println!("{:52} {}", form.name, cells.join(" "));
    }
    let cells: Vec<_> = alone.iter().map(|time| format!("{:>11.2}        ", time / 1000.0)).collect();
    println!("{:52} {}", "proved bench, the additions alone", cells.join(" "));
}

/// A zero of so many digits, from -10 to 10.
fn decimal_zero(digits: u32, random: &mut Random) -> u64 {
    let m = random.from_to(ten(digits - 1), ten(digits) - 1) * random.choose(&[1, -1]);
    decimal_pattern(m, exponent_of_ten(digits, random.choose(&[0, -1])))
}

/// M and e of a pattern, as Python's decimal module reads them.
fn decimal_text(bits: u64) -> String {
    format!("{}E{}", (bits >> 32) as u32 as i32, (bits >> 16) as u16 as i16)
}

fn decimal_card(seed: u64, digits: u32, n: usize) -> Vec<u64> {
    let mut random = Random(seed ^ (n as u64) << 8);
    (0..n).map(|_| decimal_zero(digits, &mut random)).collect()
}

fn any_card<R: Radix>(seed: u64, n: usize) -> Vec<u64> {
    if R::BASE == 2 {
        binary_card(seed, n).into_iter().map(f64::to_bits).collect()
    } else {
        decimal_card(seed, R::DIGITS, n)
    }
}

/// A zero of a format, as in its cards.
fn any_zero<R: Radix>(random: &mut Random) -> u64 {
    if R::BASE == 2 { binary_zero(random).to_bits() } else { decimal_zero(R::DIGITS, random) }
}

/// Each card of eight digits as a line of its zeros, then a line of the value and the bound of each order, as the proved library has them.
fn decimal_cards(seed: u64) -> String {
    let mut text = String::new();
    for n in SIZES {
        let zeros = decimal_card(seed, 8, n);
        let mut answers = vec![[0; 2]; n + 1];
        proved::card(Format::Decimal8, &zeros, &mut answers);
        let zeros: Vec<_> = zeros.into_iter().map(decimal_text).collect();
        let answers: Vec<_> = answers.into_iter().flatten().map(decimal_text).collect();
        text += &format!("{}\n{}\n", zeros.join(" "), answers.join(" "));
    }
    text
}

/// One card so many times and nothing else, for a profiler.
pub fn work_card(seed: u64, format: Format, n: usize, times: usize) {
    let zeros = in_format!(format, R => any_card::<R>(seed, n));
    let mut answers = vec![[0; 2]; n + 1];
    let start = Instant::now();
    proved::cards(format, black_box(&zeros), times, black_box(&mut answers));
    println!("{:.2} microseconds", start.elapsed().as_nanos() as f64 / 1000.0 / times as f64);
}

pub fn print_decimal_cards(seed: u64) {
    print!("{}", decimal_cards(seed));
}

/// The forms of a decimal card beside the proved one, in the order of the script's times.
const DECIMAL_FORMS: [&str; 4] = [
    "Python's decimal, without range tests",
    "Python's decimal, with range tests",
    "libmpdec from C, without range tests",
    "libmpdec from C, with range tests",
];

/// The microseconds of each card by Python's decimal module and by libmpdec from C, where it was found; the script also compares every
/// value and bound.
fn python_times(seed: u64) -> Vec<[f64; 4]> {
    let script = concat!(env!("CARGO_MANIFEST_DIR"), "/decimal_cards.py");
    let mut python = Command::new("python3").arg(script).stdin(Stdio::piped()).stdout(Stdio::piped()).spawn().expect("python3");
    python.stdin.take().unwrap().write_all(decimal_cards(seed).as_bytes()).unwrap();
    let output = python.wait_with_output().unwrap();
    assert!(output.status.success(), "the decimal module differs");
    let times = |line: &str| line.split(' ').map(|word| word.parse().unwrap()).collect::<Vec<f64>>().try_into().unwrap();
    String::from_utf8(output.stdout).unwrap().lines().map(times).collect()
}

/// The operations of a card: nine for each order of each addition, worked twice, and the six of each closing.
fn operations(n: usize) -> f64 {
    (2 * 9 * n * (n + 1) / 2 + 6 * n) as f64
}

fn measure_decimal(seed: u64, repetitions: usize) {
    let others = python_times(seed);
    let mut own = vec![];
    for n in SIZES {
        let zeros = decimal_card(seed, 8, n);
        let mut answers = vec![[0; 2]; n + 1];
        let mut calls: Vec<Box<dyn FnMut(usize)>> = vec![Box::new(|times| {
            proved::cards(Format::Decimal8, black_box(&zeros), times, black_box(&mut answers));
        })];
        own.push(shortest(repetitions, 4_000 / (n * n) + 1, &mut calls)[0] / 1000.0);
    }
    println!("\nDecimal with eight digits, a card of n zeros and all orders: microseconds, and as a multiple of the proved bench's time");
    print_sizes();
    let print = |name: &str, times: &[f64]| {
        let cells: Vec<_> = times.iter().zip(&own).map(|(time, own)| format!("{time:>11.1} {:>7.1}", time / own)).collect();
        println!("{name:52} {}", cells.join(" "));
    };
    print("proved bench", &own);
    for (form, name) in DECIMAL_FORMS.iter().enumerate() {
        print(name, &others.iter().map(|times| times[form]).collect::<Vec<_>>());
    }
    let each: Vec<_> = SIZES.iter().zip(&own).map(|(&n, own)| format!("{:>11.2}        ", own * 1000.0 / operations(n))).collect();
    println!("{:52} {}", "proved bench, nanoseconds for an operation", each.join(" "));
}

/// The values and bounds of a card, of which nothing is refused, by the plain implementation.
fn plain_card<R: Radix>(zeros: &[u64]) -> Vec<[u64; 2]> {
    let mut bench = Bench::<R>::new(zeros.len() as u8);
    for zero in zeros {
        bench.add(R::admit(zero.to_be_bytes()).unwrap()).unwrap();
    }
    let bits = |a| u64::from_be_bytes(R::pattern(a));
    let asked = |k| bench.ask(k).map(|(value, bound)| [bits(value), bits(bound)]).unwrap();
    (0..=zeros.len() as u8).map(asked).collect()
}

/// The shortest time of a card of n zeros in each of some formats, in turn.
fn time_cards(seed: u64, repetitions: usize, formats: &[Format], n: usize) -> Vec<f64> {
    let mut calls: Vec<Box<dyn FnMut(usize)>> = vec![];
    for &format in formats {
        let zeros = in_format!(format, R => any_card::<R>(seed, n));
        let mut answers = vec![[0; 2]; n + 1];
        proved::card(format, &zeros, &mut answers);
        assert_eq!(answers, in_format!(format, R => plain_card::<R>(&zeros)), "a card in {format:?} differs");
        calls.push(Box::new(move |times| proved::cards(format, black_box(&zeros), times, black_box(&mut answers))));
    }
    shortest(repetitions, 4_000 / (n * n) + 1, &mut calls)
}

fn measure_digits(seed: u64, repetitions: usize) {
    let formats = [Format::Decimal8, Format::Decimal7, Format::Decimal6, Format::Decimal5, Format::Decimal4];
    let columns = SIZES.map(|n| time_cards(seed, repetitions, &formats, n));
    println!("\nDecimal of d digits, a card of n zeros and all orders: microseconds");
    print_sizes();
    for (row, &format) in formats.iter().enumerate() {
        let cells = columns.each_ref().map(|times| format!("{:>11.1}        ", times[row] / 1000.0));
        println!("{:52} {}", format!("proved bench, {} digits", in_format!(format, R => R::DIGITS)), cells.join(" "));
    }
}

/// The formats of which operations and sheets are measured.
const MEASURED: [Format; 3] = [Format::Binary64, Format::Decimal8, Format::Decimal4];

/// One operation through `coef_operate`, which admits two patterns and writes two.
fn measure_operations(seed: u64, repetitions: usize) {
    println!("\nOne operation on patterns, with admission of its operands and the patterns of its answer: nanoseconds");
    let operations = [Operation::SumSplit, Operation::ProductSplit, Operation::Lift, Operation::Admission, Operation::Comparison];
    for format in MEASURED {
        let mut random = Random(seed);
        let mut operand = || in_format!(format, R => any_zero::<R>(&mut random));
        let pairs: Vec<(u64, u64)> = (0..1000).map(|_| (operand(), operand())).collect();
        let cells: Vec<_> = operations
            .iter()
            .map(|&operation| {
                let mut calls: Vec<Box<dyn FnMut(usize)>> = vec![Box::new(|times| {
                    for _ in 0..times {
                        for &(a, b) in &pairs {
                            let b = if operation == Operation::Lift { b % 193 } else { b };
                            black_box(proved::operate(format, operation, a, b));
                        }
                    }
                })];
                format!("{operation:?} {:.1}", shortest(repetitions, 10, &mut calls)[0] / 1000.0)
            })
            .collect();
        println!("{format:?}: {}", cells.join(", "));
    }
}

/// The longest sheets: slips of one kind, after so many zeros.
fn long_sheet(format: Format, random: &mut Random, k: u8, zeros: usize, slip: fn(&mut dyn FnMut() -> u64) -> Vec<u8>) -> Vec<u8> {
    let mut number = || in_format!(format, R => any_zero::<R>(random));
    let mut sheet = vec![format.number(), k];
    for _ in 0..zeros {
        sheet.push(1);
        sheet.extend(number().to_be_bytes());
    }
    while sheet.len() < 32768 {
        let next = slip(&mut number);
        if sheet.len() + next.len() > 32768 {
            sheet.push(0);
        } else {
            sheet.extend(next);
        }
    }
    sheet
}

type Slip = fn(&mut dyn FnMut() -> u64) -> Vec<u8>;

/// 64 zeros, then a clear.
fn zeros_and_clear(number: &mut dyn FnMut() -> u64) -> Vec<u8> {
    let mut slips: Vec<u8> = (0..64).flat_map(|_| [vec![1], number().to_be_bytes().to_vec()].concat()).collect();
    slips.push(0);
    slips
}

/// A claim on order 32.
fn claim(number: &mut dyn FnMut() -> u64) -> Vec<u8> {
    [vec![14, 32], number().to_be_bytes().to_vec(), vec![0; 8]].concat()
}

/// A zero and a claim on order 1.
fn zero_and_claim(number: &mut dyn FnMut() -> u64) -> Vec<u8> {
    [vec![15], number().to_be_bytes().to_vec(), vec![1], number().to_be_bytes().to_vec(), vec![0; 8]].concat()
}

fn measure_sheets(seed: u64, repetitions: usize) {
    let kinds: [(&str, usize, Slip); 5] = [
        ("64 zeros and a clear, again and again", 0, zeros_and_clear),
        ("zeros with claims on order 1 (those after the 64th zero refused)", 0, zero_and_claim),
        ("64 zeros, then claims on order 32", 64, claim),
        ("64 zeros, then orders", 64, |_| vec![2, 32]),
        ("clears", 0, |_| vec![0]),
    ];
    println!("\nA sheet of 32,768 bytes with the highest order 64: milliseconds, and bytes of its report");
    for format in MEASURED {
        for (name, zeros, slip) in kinds {
            let mut random = Random(seed);
            let sheet = long_sheet(format, &mut random, 64, zeros, slip);
            assert_eq!(sheet.len(), 32768);
            let mut buffer = vec![0; 1 << 20];
            let report = proved::report(&sheet, &mut buffer);
            assert_eq!(report, crate::sheet::report(&sheet).as_bytes());
            let length = report.len();
            let mut calls: Vec<Box<dyn FnMut(usize)>> = vec![Box::new(|times| {
                for _ in 0..times {
                    black_box(proved::report(black_box(&sheet), &mut buffer));
                }
            })];
            let best = shortest(repetitions.min(100), 1, &mut calls)[0];
            println!("{:9} {name:66} {:>9.3} {length:>8}", format!("{format:?}"), best / 1e6);
        }
    }
}

pub fn measure(seed: u64, repetitions: usize) {
    println!("seed {seed}, the shortest of {repetitions} repetitions of each, in turn");
    measure_binary(seed, repetitions);
    measure_decimal(seed, repetitions);
    measure_digits(seed, repetitions);
    measure_operations(seed, repetitions);
    measure_sheets(seed, repetitions);
}
