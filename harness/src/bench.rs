//! The bench, by its definition, over any of the plain arithmetics.

use crate::radix::{Number, Radix, at_most, grain, is_in_limits, lift, negative, one, product, product_split, size, sum, sum_split, zero};

/// A refusal: its number and its details.
pub type Refusal = (u8, Vec<u32>);

#[derive(Clone, Copy)]
struct Cell {
    s: Number,
    c: Number,
    e: Number,
}

#[derive(Clone, Copy, PartialEq, Eq, Debug)]
pub enum Verdict {
    Right,
    Wrong,
    Open,
}

pub struct Bench<R: Radix> {
    row: Vec<Cell>,
    held: u32,
    arithmetic: std::marker::PhantomData<R>,
}

/// A chain of numbered operations: the number of the first one that is refused.
fn step<T>(operation: u32, answer: Option<T>) -> Result<T, u32> {
    answer.ok_or(operation)
}

/// The cell of order j after the zero x, from the old cells j and j - 1.
fn new_cell<R: Radix>(x: Number, old: Cell, below: Cell) -> Result<Cell, u32> {
    let (p, beta) = step(1, product_split::<R>(x, below.s))?;
    let (s, sigma) = step(2, sum_split::<R>(old.s, p))?;
    let w = step(3, sum::<R>(beta, sigma))?;
    let g = step(4, sum::<R>(old.c, w))?;
    let h = step(5, product::<R>(x, below.c))?;
    let c = step(6, sum::<R>(g, h))?;
    let f = step(7, sum::<R>(old.e, size(w)))?;
    let t = step(8, product::<R>(size(x), below.e))?;
    let e = step(9, sum::<R>(f, t))?;
    Ok(Cell { s, c, e })
}

impl<R: Radix> Bench<R> {
    pub fn new(highest_order: u8) -> Bench<R> {
        let mut bench = Bench { row: vec![], held: 0, arithmetic: std::marker::PhantomData };
        bench.renew(highest_order as usize);
        bench
    }

    fn renew(&mut self, highest_order: usize) {
        let z = zero::<R>();
        self.row = vec![Cell { s: z, c: z, e: z }; highest_order + 1];
        self.row[0].s = one::<R>();
        self.held = 0;
    }

    fn highest_order(&self) -> usize {
        self.row.len() - 1
    }

    pub fn clear(&mut self) {
        self.renew(self.highest_order());
    }

    pub fn held(&self) -> u32 {
        self.held
    }

    /// Adds a zero and answers its number. No question is out: each is marked or withdrawn at once.
    pub fn add(&mut self, x: Number) -> Result<u32, Refusal> {
        if self.held == 64 {
            return Err((3, vec![]));
        }
        if !is_in_limits::<R>(x) {
            return Err((4, vec![]));
        }
        let number = self.held + 1;
        let highest = self.highest_order().min(number as usize);
        let mut row = self.row.clone();
        for j in (1..=highest).rev() {
            row[j] = new_cell::<R>(x, self.row[j], self.row[j - 1]).map_err(|operation| (5, vec![j as u32, operation]))?;
        }
        self.row = row;
        self.held = number;
        Ok(number)
    }

    fn check_order(&self, k: u8) -> Result<(), Refusal> {
        if k as usize > self.highest_order() {
            return Err((6, vec![]));
        }
        if k as u32 > self.held {
            return Err((7, vec![]));
        }
        Ok(())
    }

    fn close(&self, k: u8) -> Result<(Number, Number), u32> {
        if k == 0 {
            return Ok((one::<R>(), zero::<R>()));
        }
        let cell = self.row[k as usize];
        let n = self.held as u8;
        let (v, c) = step(1, sum_split::<R>(cell.s, cell.c))?;
        let gamma = step(2, lift::<R>(grain::<R>(2 * (n - 1)), 2 * (n - 1)))?;
        let a = step(3, product::<R>(gamma, cell.e))?;
        let b = step(4, lift::<R>(a, 3 * n))?;
        let d = step(5, sum::<R>(size(c), b))?;
        let bound = step(6, lift::<R>(d, 2))?;
        Ok((if k % 2 == 1 { negative(v) } else { v }, bound))
    }

    pub fn ask(&self, k: u8) -> Result<(Number, Number), Refusal> {
        self.check_order(k)?;
        self.close(k).map_err(|operation| (8, vec![operation]))
    }

    /// Issues a question of an order and marks a claim by it, or withdraws it.
    pub fn examine(&self, k: u8, claim: Number, tolerance: Number) -> Result<Verdict, Refusal> {
        self.check_order(k)?;
        if tolerance.negative {
            return Err((11, vec![]));
        }
        let (value, bound) = self.close(k).map_err(|operation| (8, vec![operation]))?;
        judge::<R>(value, bound, claim, tolerance).map_err(|operation| (12, vec![operation]))
    }
}

fn judge<R: Radix>(value: Number, bound: Number, claim: Number, tolerance: Number) -> Result<Verdict, u32> {
    let d = size(step(1, sum::<R>(claim, negative(value)))?);
    let a = step(2, sum::<R>(d, bound))?;
    let near = step(3, lift::<R>(a, 3))?;
    let b = step(4, sum::<R>(tolerance, bound))?;
    let far = step(5, lift::<R>(b, 3))?;
    Ok(if at_most(near, tolerance) {
        Verdict::Right
    } else if !at_most(d, far) {
        Verdict::Wrong
    } else {
        Verdict::Open
    })
}
