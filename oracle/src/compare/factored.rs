//! A factor L·D·Lᵀ of a symmetric matrix in the library's layout, the library's own or LAPACK's, and the way between
//! the two layouts. In the library's the rows of every column of L stand as the exchanges of all later pivots leave
//! them. dsytf2 leaves them as they stood at the column's own step, and dsytrs makes the exchanges as it goes.

use misuktaan::{Factors, Mode, Settings};
use oracle::pivot_cases;
use oracle::pivots::{Exchange, FROM};
use std::fmt::Debug;

pub struct Factored {
    pub n: usize,
    pub panel: Vec<f64>,
    pub d: Vec<f64>,
    pub sub: Vec<f64>,
    pub blocks: Vec<u8>,
    pub order: Vec<usize>,
}

/// What a call leaves that must accept, or that it was refused.
fn accepted<T>(call: &str, left: Result<T, impl Debug>) -> Result<T, String> {
    left.map_err(|refusal| format!("{call}: {refusal:?}"))
}

/// The exchanges of a list, by rising column.
pub fn exchanges(list: &[i32]) -> Result<Vec<Exchange>, String> {
    accepted("the list", (FROM.walked)(&pivot_cases::from(list)))
}

/// Two rows trade places in the columns before a pivot.
fn before(n: usize, panel: &mut [f64], (pivot, p): Exchange) {
    (0..pivot.first).for_each(|j| panel.swap(pivot.moved + j * n, p + j * n));
}

impl Factored {
    /// The library's factor of a matrix, without lifts.
    pub fn of(n: usize, nb: usize, a: &[f64]) -> Result<Factored, String> {
        let (settings, mut f) =
            (Settings { ncol: n, nrow: n, nb, mode: Mode::Fail, limit: 1 }, Factors::zeros(n, n, nb));
        accepted("factor", misuktaan::factor(&settings, a, f.lend()))?;
        let Factors { panel, d, sub, blocks, order, .. } = f;
        Ok(Factored { n, panel, d, sub, blocks, order })
    }

    /// What dsytf2 left, with its list or another one.
    pub fn from_lapack(n: usize, left: &[f64], list: &[i32]) -> Result<Factored, String> {
        let (mut order, mut blocks, mut panel) = (vec![0; n], vec![0; n], left.to_vec());
        accepted("from LAPACK", misuktaan::from_lapack(n, list, &mut order, &mut blocks))?;
        exchanges(list)?.into_iter().for_each(|one| before(n, &mut panel, one));
        let d = (0..n).map(|k| panel[k + k * n]).collect();
        let sub = (0..n).map(|k| if blocks[k] == 1 { panel[k + 1 + k * n] } else { 0.0 }).collect();
        Ok(Factored { n, panel, d, sub, blocks, order })
    }

    /// Its list.
    pub fn list(&self) -> Result<Vec<i32>, String> {
        let mut list = vec![0; self.n];
        accepted("to LAPACK", misuktaan::to_lapack(self.n, &self.order, &self.blocks, &mut list))?;
        Ok(list)
    }

    /// What dsytf2 would have left with this list: in each column the exchanges of later pivots are undone, the last
    /// first; D stands on and below the diagonal.
    pub fn for_lapack(&self, list: &[i32]) -> Result<Vec<f64>, String> {
        let (n, mut panel) = (self.n, self.panel.clone());
        exchanges(list)?.into_iter().rev().for_each(|one| before(n, &mut panel, one));
        for k in 0..n {
            panel[k + k * n] = self.d[k];
            if self.blocks[k] == 1 {
                panel[k + 1 + k * n] = self.sub[k];
            }
        }
        Ok(panel)
    }

    /// The library's solution of a system.
    pub fn solved(&self, b: &[f64]) -> Result<Vec<f64>, String> {
        let (n, mut x) = (self.n, b.to_vec());
        let answer = misuktaan::solve(n, n, &self.panel, &self.d, &self.sub, &self.blocks, &self.order, &mut x);
        accepted("solve", answer)?;
        Ok(x)
    }

    /// The entry of L at row i, column j, where i is not before j.
    pub fn l(&self, i: usize, j: usize) -> f64 {
        match i {
            _ if i == j => 1.0,
            _ if i == j + 1 && self.blocks[j] == 1 => 0.0,
            _ => self.panel[i + j * self.n],
        }
    }

    /// The entries of D in column k, with their rows.
    pub fn column_of_d(&self, k: usize) -> Vec<(usize, f64)> {
        match k {
            _ if self.blocks[k] == 1 => vec![(k, self.d[k]), (k + 1, self.sub[k])],
            _ if k > 0 && self.blocks[k - 1] == 1 => vec![(k - 1, self.sub[k - 1]), (k, self.d[k])],
            _ => vec![(k, self.d[k])],
        }
    }
}
