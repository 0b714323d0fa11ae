//! Solve, restated from docs/SCOPE.md, "Solve", position by position and apart
//! from the port. Each step is a function of its own, and [`AS_WRITTEN`] has them
//! all, so that a wrong reading can say one of them otherwise (`readings.rs`).

use crate::case::{Refusal, Solve};
use crate::rules::{bad_block, bad_shape, refuse_at, refuse_if, Checked};

/// A reading of the text: the refusals, and what each numbered step gives.
#[derive(Clone, Copy)]
pub struct Reading {
    pub checked: fn(&Solve) -> Checked,
    /// 1: every y.
    pub taken: fn(&Solve) -> Vec<f64>,
    /// 2: y(k), from y as the earlier positions have left it.
    pub forward: fn(&Solve, usize, &[f64]) -> f64,
    /// 3, at a 1x1: y(k).
    pub single: fn(&Solve, usize, &[f64]) -> f64,
    /// 3, at a block: y(k) and y(k + 1).
    pub block: fn(&Solve, usize, &[f64]) -> [f64; 2],
    /// 4: x(k), from x as the later positions have left it.
    pub back: fn(&Solve, usize, &[f64]) -> f64,
    /// 5: the vector.
    pub undone: fn(&Solve, &[f64]) -> Vec<f64>,
}

/// The reading that is built.
pub const AS_WRITTEN: Reading = Reading { checked, taken, forward, single, block, back, undone };

impl Reading {
    /// The refusal, or the vector as an accepted call leaves it.
    pub fn answer(&self, s: &Solve) -> Result<Vec<f64>, Refusal> {
        (self.checked)(s)?;
        let mut y = (self.taken)(s);
        for k in 0..s.ncol {
            y[k] = (self.forward)(s, k, &y);
        }
        for k in (0..s.ncol).filter(|&k| !second(s, k)) {
            match s.blocks[k] {
                1 => [y[k], y[k + 1]] = (self.block)(s, k, &y),
                _ => y[k] = (self.single)(s, k, &y),
            }
        }
        for k in (0..s.ncol).rev() {
            y[k] = (self.back)(s, k, &y);
        }
        Ok((self.undone)(s, &y))
    }
}

// ---- refusals

fn checked(s: &Solve) -> Checked {
    shape(s)?;
    lengths(s)?;
    order(s)?;
    blocks(s)?;
    right_side(s)
}

/// 1: a shape that the factor call refuses too, or one that is not square.
pub fn shape(s: &Solve) -> Checked {
    refuse_if(bad_shape(s.ncol, s.nrow) || s.nrow != s.ncol, 1)
}

/// 25: the panel has ncol·ncol places, each list ncol.
pub fn lengths(s: &Solve) -> Checked {
    let lists = [s.d.len(), s.sub.len(), s.blocks.len(), s.order.len(), s.vector.len()];
    refuse_if(s.panel.len() != s.nrow * s.ncol || lists != [s.ncol; 5], 25)
}

/// 26: the least position that is out of range or repeats an earlier one.
pub fn order(s: &Solve) -> Checked {
    refuse_at((0..s.order.len()).find(|&k| out_of_range(s, k) || repeats(s, k)), 26)
}

pub fn out_of_range(s: &Solve, k: usize) -> bool {
    s.order[k] >= s.ncol
}

pub fn repeats(s: &Solve, k: usize) -> bool {
    s.order[..k].contains(&s.order[k])
}

/// 16.
pub fn blocks(s: &Solve) -> Checked {
    refuse_at(bad_block(&s.blocks), 16)
}

/// 27: the least index of the vector that is not finite.
pub fn right_side(s: &Solve) -> Checked {
    refuse_at(s.vector.iter().position(|x| !x.is_finite()), 27)
}

// ---- L

/// The panel's number at row i, column j.
pub fn at(s: &Solve, i: usize, j: usize) -> f64 {
    s.panel[i + j * s.nrow]
}

/// Whether k is a block's second position.
fn second(s: &Solve, k: usize) -> bool {
    k > 0 && s.blocks[k - 1] == 1
}

/// Whether L has an entry at row i, column j, where i is after j.
pub fn has_entry(s: &Solve, i: usize, j: usize) -> bool {
    !(i == j + 1 && second(s, i))
}

/// An entry of L, and what it is multiplied by.
pub type Term = (f64, f64);

/// What y(k) loses going forward, by rising position.
pub fn earlier(s: &Solve, k: usize, y: &[f64]) -> Vec<Term> {
    (0..k).filter(|&j| has_entry(s, k, j)).map(|j| (at(s, k, j), y[j])).collect()
}

/// What x(k) loses going back, by falling position.
pub fn later(s: &Solve, k: usize, x: &[f64]) -> Vec<Term> {
    (k + 1..s.ncol).rev().filter(|&j| has_entry(s, j, k)).map(|j| (at(s, j, k), x[j])).collect()
}

/// A number that loses the terms one after another.
pub fn less(x: f64, terms: &[Term]) -> f64 {
    terms.iter().fold(x, |x, (l, y)| x - l * y)
}

// ---- the steps

fn taken(s: &Solve) -> Vec<f64> {
    s.order.iter().map(|&row| s.vector[row]).collect()
}

fn forward(s: &Solve, k: usize, y: &[f64]) -> f64 {
    less(y[k], &earlier(s, k, y))
}

fn single(s: &Solve, k: usize, y: &[f64]) -> f64 {
    y[k] * (1.0 / s.d[k])
}

/// A block's d11, d21 and d22.
pub type Pivot = [f64; 3];

pub fn pivot(s: &Solve, k: usize) -> Pivot {
    [s.d[k], s.sub[k], s.d[k + 1]]
}

pub fn determinant([d11, d21, d22]: Pivot) -> f64 {
    d11 * d22 - d21 * d21
}

/// What a and b at a block's two positions become.
pub fn divided(pivot: Pivot, det: f64, a: f64, b: f64) -> [f64; 2] {
    let [d11, d21, d22] = pivot;
    [(d22 * a - d21 * b) * (1.0 / det), (d11 * b - d21 * a) * (1.0 / det)]
}

fn block(s: &Solve, k: usize, y: &[f64]) -> [f64; 2] {
    let pivot = pivot(s, k);
    divided(pivot, determinant(pivot), y[k], y[k + 1])
}

fn back(s: &Solve, k: usize, x: &[f64]) -> f64 {
    less(x[k], &later(s, k, x))
}

fn undone(s: &Solve, x: &[f64]) -> Vec<f64> {
    let mut vector = s.vector.clone();
    s.order.iter().zip(x).for_each(|(&row, &x)| vector[row] = x);
    vector
}
