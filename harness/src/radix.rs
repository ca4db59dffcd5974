//! Numbers of P digits in base B, by their definition: whole numbers of at most 128 bits, rounded once. Binary64 and decimal with four to
//! eight digits are of this kind, with U = 2 B^(P-1). No floating-point operation is used.

use std::cmp::Ordering;

/// A base, a precision, the least exponent, and the limits' exponents.
pub trait Radix: Copy {
    const BASE: u128;
    const DIGITS: u32;
    /// every number is a whole multiple of BASE^LEAST
    const LEAST: i32;
    /// low is BASE^-LIMIT, high is BASE^LIMIT
    const LIMIT: i32;
    /// numbers whose exponents differ by more leave each other as they are, so it is above DIGITS; the sum of two within it fits 128 bits
    const FAR: i32;

    /// The number that eight bytes are admitted as, or the cause.
    fn admit(bytes: [u8; 8]) -> Result<Number, u8>;

    /// The eight bytes of a number.
    fn pattern(a: Number) -> [u8; 8];
}

/// (-1)^negative x digits x BASE^exponent. Zero is 0, not negative, with the least exponent; any other number has all its digits, or
/// the least exponent.
#[derive(Clone, Copy, PartialEq, Eq, Debug)]
pub struct Number {
    pub negative: bool,
    pub digits: u128,
    pub exponent: i32,
}

fn power<R: Radix>(k: u32) -> u128 {
    R::BASE.pow(k)
}

fn count_digits<R: Radix>(n: u128) -> u32 {
    if n == 0 { 0 } else { n.ilog(R::BASE) + 1 }
}

pub fn zero<R: Radix>() -> Number {
    Number { negative: false, digits: 0, exponent: R::LEAST }
}

/// A number that needs no rounding.
pub fn exact<R: Radix>(negative: bool, n: u128, exponent: i32) -> Number {
    let number = round::<R>(negative, n, false, exponent);
    let (m, e) = (number.digits, number.exponent);
    assert!(
        n == 0 || (if e >= exponent { m * power::<R>((e - exponent) as u32) == n } else { n * power::<R>((exponent - e) as u32) == m }),
        "not a number: {n} with the exponent {exponent}"
    );
    number
}

pub fn one<R: Radix>() -> Number {
    exact::<R>(false, 1, 0)
}

/// The number nearest to n BASE^exponent, or to a little more where there is a rest; at a tie the one with even digits. With a rest n has
/// more digits than are kept.
fn round<R: Radix>(negative: bool, n: u128, rest: bool, exponent: i32) -> Number {
    if n == 0 {
        assert!(!rest);
        return zero::<R>();
    }
    let count = count_digits::<R>(n);
    let cut = (count as i32 - R::DIGITS as i32).max(R::LEAST - exponent);
    if cut <= 0 {
        // as many zeros behind it as there is room for
        assert!(!rest);
        return Number { negative, digits: n * power::<R>(-cut as u32), exponent: exponent + cut };
    }
    if cut > count as i32 {
        // below 1 / BASE of the least unit, and so below half of it
        return zero::<R>();
    }
    let unit = power::<R>(cut as u32);
    let (quotient, remainder) = (n / unit, n % unit);
    let up = match remainder.cmp(&(unit - remainder)) {
        Ordering::Less => false,
        Ordering::Equal => rest || quotient % 2 == 1,
        Ordering::Greater => true,
    };
    let mut digits = quotient + up as u128;
    let mut exponent = exponent + cut;
    if digits == power::<R>(R::DIGITS) {
        digits /= R::BASE;
        exponent += 1;
    }
    if digits == 0 {
        return zero::<R>();
    }
    Number { negative, digits, exponent }
}

/// The order of the sizes of two numbers.
fn compare_sizes(a: Number, b: Number) -> Ordering {
    (a.exponent, a.digits).cmp(&(b.exponent, b.digits))
}

/// BASE^k as a number.
fn unit<R: Radix>(k: i32) -> Number {
    exact::<R>(false, 1, k)
}

fn is_above_high<R: Radix>(a: Number) -> bool {
    compare_sizes(a, unit::<R>(R::LIMIT)).is_gt()
}

fn is_below_low<R: Radix>(a: Number) -> bool {
    compare_sizes(a, unit::<R>(-R::LIMIT)).is_lt()
}

/// Is a zero, or from low to high in size?
pub fn is_in_limits<R: Radix>(a: Number) -> bool {
    a.digits == 0 || !(is_below_low::<R>(a) || is_above_high::<R>(a))
}

/// Admits a number that eight bytes stand for: cause 2 where it is above high.
pub fn admitted<R: Radix>(a: Number) -> Result<Number, u8> {
    if is_above_high::<R>(a) { Err(2) } else { Ok(a) }
}

pub fn size(a: Number) -> Number {
    Number { negative: false, ..a }
}

pub fn negative(a: Number) -> Number {
    Number { negative: a.digits != 0 && !a.negative, ..a }
}

fn signed(a: Number) -> i128 {
    if a.negative { -(a.digits as i128) } else { a.digits as i128 }
}

/// The rounded sum and its error part; refused above high.
pub fn sum_split<R: Radix>(a: Number, b: Number) -> Option<(Number, Number)> {
    const { assert!(R::FAR > R::DIGITS as i32 && R::BASE.pow(R::DIGITS + R::FAR as u32) < 1 << 126) };
    let (coarse, fine) = if a.exponent < b.exponent { (b, a) } else { (a, b) };
    let gap = coarse.exponent - fine.exponent;
    if gap > R::FAR {
        // the coarse one has all its digits, so that every other number is BASE^-1 of its unit away or more; the fine one is below BASE^-2
        // of that unit, and so below half of this
        return Some((coarse, fine));
    }
    let shifted = signed(coarse) * power::<R>(gap as u32) as i128;
    let n = shifted + signed(fine);
    let main = round::<R>(n < 0, n.unsigned_abs(), false, fine.exponent);
    if is_above_high::<R>(main) {
        return None;
    }
    Some((main, error_part::<R>(n, fine.exponent, main)))
}

/// What is left of n BASE^exponent beside its rounding.
fn error_part<R: Radix>(n: i128, exponent: i32, main: Number) -> Number {
    // the rounding has a lower exponent only where it is exact
    if main.exponent < exponent {
        return zero::<R>();
    }
    let error = n - signed(main) * power::<R>((main.exponent - exponent) as u32) as i128;
    exact::<R>(error < 0, error.unsigned_abs(), exponent)
}

/// The rounded product and its error part; refused where the product is not zero and its rounding is below low or above high.
pub fn product_split<R: Radix>(a: Number, b: Number) -> Option<(Number, Number)> {
    let n = signed(a) * signed(b);
    if n == 0 {
        return Some((zero::<R>(), zero::<R>()));
    }
    let exponent = a.exponent + b.exponent;
    let main = round::<R>(n < 0, n.unsigned_abs(), false, exponent);
    if is_below_low::<R>(main) || is_above_high::<R>(main) {
        return None;
    }
    Some((main, error_part::<R>(n, exponent, main)))
}

/// a / (1 - m / U) = a U / (U - m), rounded; refused where a is not zero and the result is below low or above high.
pub fn lift<R: Radix>(a: Number, m: u8) -> Option<Number> {
    if a.digits == 0 {
        return Some(a);
    }
    let u = 2 * power::<R>(R::DIGITS - 1);
    // a U as a whole number with many zeros behind, so that the quotient has more digits than are kept
    let zeros = u128::MAX.ilog(R::BASE) - count_digits::<R>(a.digits) - count_digits::<R>(u);
    let divisor = u - m as u128;
    let n = a.digits * u * power::<R>(zeros);
    let result = round::<R>(a.negative, n / divisor, n % divisor != 0, a.exponent - zeros as i32);
    if is_below_low::<R>(result) || is_above_high::<R>(result) { None } else { Some(result) }
}

/// m / U, which is m (BASE / 2) BASE^-DIGITS.
pub fn grain<R: Radix>(m: u8) -> Number {
    exact::<R>(false, m as u128 * (R::BASE / 2), -(R::DIGITS as i32))
}

pub fn at_most(a: Number, b: Number) -> bool {
    match (a.negative, b.negative) {
        (true, false) => true,
        (false, true) => false,
        (false, false) => compare_sizes(a, b).is_le(),
        (true, true) => compare_sizes(a, b).is_ge(),
    }
}

pub fn sum<R: Radix>(a: Number, b: Number) -> Option<Number> {
    Some(sum_split::<R>(a, b)?.0)
}

pub fn product<R: Radix>(a: Number, b: Number) -> Option<Number> {
    Some(product_split::<R>(a, b)?.0)
}

/// IEEE 754 binary64, with the limits 2^-900 and 2^900.
#[derive(Clone, Copy)]
pub struct Binary64;

impl Radix for Binary64 {
    const BASE: u128 = 2;
    const DIGITS: u32 = 53;
    const LEAST: i32 = -1074;
    const LIMIT: i32 = 900;
    const FAR: i32 = 70;

    fn admit(bytes: [u8; 8]) -> Result<Number, u8> {
        let bits = u64::from_be_bytes(bytes);
        let negative = bits >> 63 == 1;
        let field = (bits >> 52 & 0x7ff) as i32;
        let fraction = (bits & ((1 << 52) - 1)) as u128;
        match field {
            0x7ff => Err(1),
            0 if fraction == 0 => Ok(zero::<Self>()),
            0 => admitted::<Self>(Number { negative, digits: fraction, exponent: -1074 }),
            _ => admitted::<Self>(Number { negative, digits: fraction + (1 << 52), exponent: field - 1075 }),
        }
    }

    fn pattern(a: Number) -> [u8; 8] {
        let sign = (a.negative as u64) << 63;
        let bits = if a.digits < 1 << 52 {
            a.digits as u64
        } else {
            ((a.exponent + 1075) as u64) << 52 | (a.digits as u64 & ((1 << 52) - 1))
        };
        (sign | bits).to_be_bytes()
    }
}

/// Decimal with D digits, from four to eight, with the limits 10^-40 and 10^40.
#[derive(Clone, Copy)]
pub struct Decimal<const D: u32>;

impl<const D: u32> Radix for Decimal<D> {
    const BASE: u128 = 10;
    const DIGITS: u32 = D;
    const LEAST: i32 = -70;
    const LIMIT: i32 = 40;
    const FAR: i32 = 36 - D as i32;

    fn admit(bytes: [u8; 8]) -> Result<Number, u8> {
        let m = i32::from_be_bytes(bytes[..4].try_into().unwrap());
        let e = i16::from_be_bytes(bytes[4..6].try_into().unwrap()) as i32;
        if bytes[6..] != [0, 0] {
            return Err(3);
        }
        let digits = m.unsigned_abs() as u128;
        let in_form = match count_digits::<Self>(digits) {
            0 => e == 0,
            count if count < D => e == -70,
            count => count == D && (-70..=41 - D as i32).contains(&e),
        };
        if !in_form {
            return Err(3);
        }
        if m == 0 { Ok(zero::<Self>()) } else { admitted::<Self>(Number { negative: m < 0, digits, exponent: e }) }
    }

    fn pattern(a: Number) -> [u8; 8] {
        let m = signed(a) as i32;
        let e = if m == 0 { 0 } else { a.exponent as i16 };
        let mut bytes = [0; 8];
        bytes[..4].copy_from_slice(&m.to_be_bytes());
        bytes[4..6].copy_from_slice(&e.to_be_bytes());
        bytes
    }
}
