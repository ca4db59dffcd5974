//! Random patterns, operands and sheets: over the whole range, near the limits, ties, cancellation, subnormal numbers, and damage.

use crate::bench::Bench;
use crate::proved::{FORMATS, in_format};
use crate::radix::{Number, Radix, lift, negative, size, sum};

/// SplitMix64.
pub struct Random(pub u64);

impl Random {
    pub fn next(&mut self) -> u64 {
        self.0 = self.0.wrapping_add(0x9e37_79b9_7f4a_7c15);
        let mut z = self.0;
        z = (z ^ (z >> 30)).wrapping_mul(0xbf58_476d_1ce4_e5b9);
        z = (z ^ (z >> 27)).wrapping_mul(0x94d0_49bb_1331_11eb);
        z ^ (z >> 31)
    }

    /// from 0 to n - 1
    pub fn below(&mut self, n: u64) -> u64 {
        self.next() % n
    }

    /// from a to b
    pub fn from_to(&mut self, a: i64, b: i64) -> i64 {
        a + self.below((b - a + 1) as u64) as i64
    }

    pub fn one_in(&mut self, n: u64) -> bool {
        self.below(n) == 0
    }

    pub fn choose<T: Copy>(&mut self, items: &[T]) -> T {
        items[self.below(items.len() as u64) as usize]
    }
}

fn binary_pattern(negative: bool, exponent_field: u64, fraction: u64) -> u64 {
    (negative as u64) << 63 | exponent_field << 52 | (fraction & ((1 << 52) - 1))
}

pub fn decimal_pattern(m: i64, e: i64) -> u64 {
    (m as u32 as u64) << 32 | (e as u16 as u64) << 16
}

/// 10^k
pub fn ten(k: u32) -> i64 {
    10i64.pow(k)
}

/// The exponent of 10^k where it is written with so many digits.
pub fn exponent_of_ten(digits: u32, k: i64) -> i64 {
    k - (digits as i64 - 1)
}

/// A fraction: random, with few bits, or all ones but few.
fn fraction(random: &mut Random) -> u64 {
    let bits = random.next() >> 12;
    match random.below(5) {
        0 => 0,
        1 => bits & !((1 << random.below(52)) - 1),
        2 => !0 >> random.from_to(12, 63),
        3 => (!0 >> 12) ^ (1 << random.below(52)),
        _ => bits,
    }
}

pub fn any_binary(random: &mut Random) -> u64 {
    let negative = random.one_in(2);
    match random.below(16) {
        // the limits and what lies beside them
        0 => {
            let limit = random.choose(&[1023u64 + 900, 1023 - 900, 1023 + 450, 1023 - 450, 1023, 1023 + 899, 1023 - 899]) << 52;
            ((negative as u64) << 63 | limit).wrapping_add(random.from_to(-2, 2) as u64)
        }
        // zeros, infinities, NaNs, subnormal numbers
        1 => binary_pattern(negative, random.choose(&[0, 0, 2047]), random.choose(&[0, 0, 1, 1 << 51, !0])),
        2 => binary_pattern(negative, 0, fraction(random) >> random.below(52)),
        3 => random.next(),
        4 => binary_pattern(negative, random.from_to(1, 122) as u64, fraction(random)),
        5 => binary_pattern(negative, random.from_to(1900, 1926) as u64, fraction(random)),
        6 => binary_pattern(negative, random.from_to(120, 1926) as u64, fraction(random)),
        // small whole numbers and their fractions
        7 => (random.from_to(-1000, 1000) as f64 / random.choose(&[1.0, 2.0, 4.0, 10.0, 3.0])).to_bits(),
        _ => binary_pattern(negative, random.from_to(1023 - 60, 1023 + 60) as u64, fraction(random)),
    }
}

/// So many digits: random, few and zeros, or nines.
fn all_digits(digits: u32, random: &mut Random) -> i64 {
    let (least, end) = (ten(digits - 1), ten(digits));
    let any = random.from_to(least, end - 1);
    let cut = ten(random.below(digits as u64) as u32);
    match random.below(5) {
        0 => any / cut * cut,
        1 => end - cut,
        2 => least + cut / 10,
        _ => any,
    }
}

pub fn any_decimal(digits: u32, random: &mut Random) -> u64 {
    let sign = random.choose(&[1, -1]);
    let (least, end) = (ten(digits - 1), ten(digits));
    let at = |k| exponent_of_ten(digits, k);
    let full = |random: &mut Random, from, to| decimal_pattern(sign * all_digits(digits, random), random.from_to(from, to));
    match random.below(16) {
        // the limits and what lies beside them, of the exponents too
        0 => decimal_pattern(
            sign * random.choose(&[least, least + 1, end - 1]),
            random.choose(&[at(41), at(40), at(39), at(-40), at(-41), at(0), at(-1), at(20), at(-20), -70, -71]),
        ),
        // zero, and patterns that are not in the one form, some of them in that of another count of digits
        1 => decimal_pattern(0, random.choose(&[0, 0, 0, 1, -70])),
        2 => {
            let most = ten(random.choose(&[digits, digits, digits + 1, 8])) + 2;
            decimal_pattern(random.from_to(-most, most), random.from_to(-72, at(40) + 2)) | random.choose(&[0, 0, 0, 1, 256])
        }
        3 => random.next() << random.choose(&[0, 16]),
        // the numbers with the least exponent
        4 => decimal_pattern(sign * random.from_to(1, least - 1), -70),
        5 => full(random, -70, -60),
        6 => full(random, at(32), at(40)),
        7 => full(random, -70, at(40)),
        // small whole numbers and their fractions
        8 => decimal_pattern(sign * random.from_to(1, 99) * ten(digits - 2), random.from_to(at(-1), at(2))),
        _ => full(random, at(-10), at(10)),
    }
}

pub fn any_pattern<R: Radix>(random: &mut Random) -> u64 {
    if R::BASE == 2 { any_binary(random) } else { any_decimal(R::DIGITS, random) }
}

fn beside_binary(random: &mut Random, a: u64) -> u64 {
    let sign = random.below(2) << 63;
    if random.one_in(2) {
        return (a ^ sign).wrapping_add(random.from_to(-3, 3) as u64);
    }
    let field = a >> 52 & 0x7ff;
    let low = field.saturating_sub(random.from_to(50, 56) as u64);
    sign | low << 52 | random.choose(&[0, 0, 1, 1 << 51, !0 >> 12])
}

fn beside_decimal(digits: u32, random: &mut Random, a: u64) -> u64 {
    let (m, e) = ((a >> 32) as i32 as i64, (a >> 16) as i16 as i64);
    if random.one_in(2) {
        let m = m * random.choose(&[1, -1]) + random.from_to(-3, 3);
        return decimal_pattern(m, e + random.choose(&[0, 0, 0, 1, -1]));
    }
    let half = 5 * ten(digits - 1);
    let m = random.choose(&[half, -half, half / 5, half + 1, half - 1, half / 2]);
    decimal_pattern(m, e - digits as i64 + random.from_to(-2, 2))
}

/// A second operand: any, or one beside the first or its negative, or one that is about half a unit in the last place of it.
pub fn beside<R: Radix>(random: &mut Random, a: u64) -> u64 {
    match (random.one_in(2), R::BASE) {
        (true, _) => any_pattern::<R>(random),
        (false, 2) => beside_binary(random, a),
        (false, _) => beside_decimal(R::DIGITS, random, a),
    }
}

/// A zero of a sheet, mostly of a scale at which many zeros stay in range.
fn sheet_zero<R: Radix>(random: &mut Random, scale: i64) -> u64 {
    if random.one_in(40) {
        return any_pattern::<R>(random);
    }
    if random.one_in(40) {
        return 0;
    }
    let negative = random.one_in(2);
    if R::BASE == 2 {
        return binary_pattern(negative, (1023 + scale + random.from_to(-3, 3)) as u64, fraction(random));
    }
    let m = all_digits(R::DIGITS, random);
    decimal_pattern(if negative { -m } else { m }, exponent_of_ten(R::DIGITS, scale / 4) + random.from_to(-1, 1))
}

/// A pattern some units in the last place beside that of a number.
fn nudged<R: Radix>(random: &mut Random, a: Number) -> u64 {
    let bits = u64::from_be_bytes(R::pattern(a));
    let step = if R::BASE == 2 { 1 } else { 1 << 32 };
    let far = random.choose(&[0, 0, 1, 2, 10, 1000]);
    bits.wrapping_add((random.from_to(-far, far) * step) as u64)
}

/// A claim and a tolerance at which a verdict turns: near is the tolerance, or far is the distance of the claim from the value.
fn turning_claim<R: Radix>(random: &mut Random, value: Number, bound: Number) -> Option<(u64, u64)> {
    let bits = |a: Number| u64::from_be_bytes(R::pattern(a));
    if random.one_in(2) {
        let claim = R::admit(nudged::<R>(random, value).to_be_bytes()).ok()?;
        let distance = size(sum::<R>(claim, negative(value))?);
        return Some((bits(claim), bits(lift::<R>(sum::<R>(distance, bound)?, 3)?)));
    }
    let tolerance = size(R::admit(nudged::<R>(random, beside_what(value, bound)).to_be_bytes()).ok()?);
    let far = lift::<R>(sum::<R>(tolerance, bound)?, 3)?;
    Some((bits(sum::<R>(value, far)?), bits(tolerance)))
}

/// What a tolerance is taken beside: the value where the bound is zero.
fn beside_what(value: Number, bound: Number) -> Number {
    if bound.digits == 0 { value } else { bound }
}

/// A claim on an order and a tolerance: near the value and the bound that the order closes to, where it does.
fn claim<R: Radix>(random: &mut Random, bench: &Bench<R>, k: u8) -> (u64, u64) {
    match bench.ask(k) {
        Ok((value, bound)) if !random.one_in(8) => {
            if random.one_in(3)
                && let Some(claim_and_tolerance) = turning_claim::<R>(random, value, bound)
            {
                return claim_and_tolerance;
            }
            let tolerance = match random.below(4) {
                0 => 0,
                1 => any_pattern::<R>(random),
                _ => nudged::<R>(random, bound),
            };
            (nudged::<R>(random, value), tolerance)
        }
        _ => (any_pattern::<R>(random), any_pattern::<R>(random)),
    }
}

/// The scale of the zeros of a sheet: about the exponent of 2 in them.
fn any_scale<R: Radix>(random: &mut Random) -> i64 {
    let scale = match random.below(4) {
        0 => 0,
        1 => random.from_to(-12, 12),
        2 => random.from_to(-60, 60),
        _ => random.from_to(-120, 120) * 4,
    };
    if R::BASE == 2 { scale } else { scale.clamp(-150, 150) }
}

/// The slips of a sheet; a bench of the plain kind tells what claims are near.
fn slips<R: Radix>(random: &mut Random, sheet: &mut Vec<u8>, longest: usize) {
    let k_highest = sheet[1];
    let mut bench = Bench::<R>::new(k_highest);
    let scale = any_scale::<R>(random);
    let count = random.from_to(0, longest as i64);
    for _ in 0..count {
        let map = random.choose(&[1, 1, 1, 1, 1, 1, 1, 2, 2, 3, 3, 14, 14, 15]);
        let map = if random.one_in(60) { 0 } else { map };
        sheet.push(map);
        if map == 0 {
            bench.clear();
        }
        if map & 1 != 0 {
            let zero = sheet_zero::<R>(random, scale).to_be_bytes();
            sheet.extend(zero);
            if let Ok(x) = R::admit(zero) {
                let _ = bench.add(x);
            }
        }
        if map & 2 != 0 {
            let most = bench.held().min(k_highest as u32) as i64;
            let order = if random.one_in(20) { random.below(256) as u8 } else { random.from_to(0, most) as u8 };
            sheet.push(order);
            if map & 4 != 0 {
                let (claim, tolerance) = claim::<R>(random, &bench, order);
                sheet.extend(claim.to_be_bytes());
                sheet.extend(tolerance.to_be_bytes());
            }
        }
    }
}

/// Spoils a byte of a header: the number of the format, or the highest order.
fn damage_header(random: &mut Random, sheet: &mut [u8]) {
    if random.one_in(2) {
        sheet[0] = random.choose(&[0, 1, 2, 3, 4, 5, 6, 7, 8, 9, 255]);
    } else {
        sheet[1] = random.choose(&[0, 1, 2, 3, 64, 65, 255]);
    }
}

/// Spoils a sheet: cut off, bytes changed, put in or left out, another header, or one that is too long.
fn damage(random: &mut Random, sheet: &mut Vec<u8>) {
    for _ in 0..random.from_to(1, 3) {
        let at = random.below(sheet.len() as u64 + 1) as usize;
        match random.below(8) {
            0 => sheet.truncate(at),
            1 if at < sheet.len() => sheet[at] = random.next() as u8,
            2 if at < sheet.len() => sheet[at] ^= 1 << random.below(8),
            3 => sheet.insert(at, random.next() as u8),
            4 if at < sheet.len() => drop(sheet.remove(at)),
            5 if sheet.len() > 1 => damage_header(random, sheet),
            6 if random.one_in(20) => sheet.resize(random.from_to(32766, 32770) as usize, random.choose(&[0, 0, 255])),
            7 => sheet.extend((0..random.below(20)).map(|_| random.next() as u8).collect::<Vec<_>>()),
            _ => {}
        }
    }
}

/// A random sheet of at most so many slips, one in three of them damaged.
pub fn any_sheet(random: &mut Random, longest: usize) -> Vec<u8> {
    if random.one_in(50) {
        return (0..random.below(60)).map(|_| random.next() as u8).collect();
    }
    let format = random.choose(&FORMATS);
    let k = random.choose(&[1, 2, 3, 5, 8, 64]);
    let k = if random.one_in(3) { random.from_to(1, 64) as u8 } else { k };
    let mut sheet = vec![format.number(), k];
    in_format!(format, R => slips::<R>(random, &mut sheet, longest));
    if random.one_in(3) {
        damage(random, &mut sheet);
    }
    sheet
}
