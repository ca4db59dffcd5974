//! Two passes over a row in plain Rust, without range tests and with them.

const U: f64 = 1.1102230246251565e-16;
const SPLITTER: f64 = 134217729.0;
// 2^-900 and 2^900
const LOW: f64 = f64::from_bits((1023 - 900) << 52);
const HIGH: f64 = f64::from_bits((1023 + 900) << 52);

#[derive(Clone, Copy, Default)]
struct Cell {
    s: f64,
    c: f64,
    e: f64,
}

fn two_sum(a: f64, b: f64) -> (f64, f64) {
    let s = a + b;
    let z = s - a;
    (s, (a - (s - z)) + (b - z))
}

fn split(a: f64) -> (f64, f64) {
    let c = SPLITTER * a;
    let x = c - (c - a);
    (x, a - x)
}

fn product_error(a: f64, b: f64, p: f64) -> f64 {
    let ((a1, a2), (b1, b2)) = (split(a), split(b));
    a2 * b2 - (((p - a1 * b1) - a2 * b1) - a1 * b2)
}

fn lift(a: f64, m: f64) -> f64 {
    a / (1.0 - m * U)
}

/// What a pass does with a range: nothing, or a test of each operation.
trait Range {
    fn sum(r: f64) -> Option<f64>;
    fn product(r: f64, a: f64, b: f64) -> Option<f64>;
}

struct Untested;

impl Range for Untested {
    fn sum(r: f64) -> Option<f64> {
        Some(r)
    }

    fn product(r: f64, _: f64, _: f64) -> Option<f64> {
        Some(r)
    }
}

struct Tested;

impl Range for Tested {
    fn sum(r: f64) -> Option<f64> {
        (r.abs() <= HIGH).then_some(r)
    }

    fn product(r: f64, a: f64, b: f64) -> Option<f64> {
        (LOW <= r.abs() && r.abs() <= HIGH || a == 0.0 || b == 0.0).then_some(r)
    }
}

#[inline(always)]
fn update<R: Range>(x: f64, old: Cell, below: Cell) -> Option<Cell> {
    let p = R::product(x * below.s, x, below.s)?;
    let beta = product_error(x, below.s, p);
    let (s, sigma) = two_sum(old.s, p);
    R::sum(s)?;
    let w = R::sum(beta + sigma)?;
    let g = R::sum(old.c + w)?;
    let h = R::product(x * below.c, x, below.c)?;
    let c = R::sum(g + h)?;
    let f = R::sum(old.e + w.abs())?;
    let t = R::product(x.abs() * below.e, x, below.e)?;
    let e = R::sum(f + t)?;
    Some(Cell { s, c, e })
}

#[inline(always)]
fn close<R: Range>(cell: Cell, n: usize, k: usize) -> Option<[f64; 2]> {
    if k == 0 {
        return Some([1.0, 0.0]);
    }
    let (v, c) = two_sum(cell.s, cell.c);
    R::sum(v)?;
    let m = 2.0 * (n - 1) as f64;
    let gamma = R::product(lift(m * U, m), m, 1.0)?;
    let e = R::product(gamma * cell.e, gamma, cell.e)?;
    let alpha = R::product(lift(e, 3.0 * n as f64), e, 1.0)?;
    let s = R::sum(c.abs() + alpha)?;
    let bound = R::product(lift(s, 2.0), s, 1.0)?;
    Some([if k % 2 == 1 { -v } else { v }, bound])
}

fn card<R: Range>(zeros: &[f64], times: usize, answers: &mut [[f64; 2]]) -> Option<()> {
    let n = zeros.len();
    let mut cells = [Cell::default(); 65];
    let row = &mut cells[..=n];
    for _ in 0..times {
        row.fill(Cell::default());
        row[0].s = 1.0;
        for (i, &x) in zeros.iter().enumerate() {
            let mut all = 0.0;
            for j in (1..=i + 1).rev() {
                let q = update::<R>(x, row[j], row[j - 1])?;
                all += q.s.abs() + q.c.abs() + q.e;
            }
            if all == f64::INFINITY {
                return None;
            }
            for j in (1..=i + 1).rev() {
                row[j] = update::<R>(x, row[j], row[j - 1])?;
            }
        }
        for (k, answer) in answers.iter_mut().enumerate() {
            *answer = close::<R>(row[k], n, k)?;
        }
    }
    Some(())
}

pub fn untested(zeros: &[f64], times: usize, answers: &mut [[f64; 2]]) {
    card::<Untested>(zeros, times, answers);
}

pub fn tested(zeros: &[f64], times: usize, answers: &mut [[f64; 2]]) {
    card::<Tested>(zeros, times, answers);
}
