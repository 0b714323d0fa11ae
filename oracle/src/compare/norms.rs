//! Norms, and what is left of an equation. All norms are greatest magnitudes, of a matrix the greatest sum of
//! magnitudes in a row.

use crate::factored::Factored;

/// A sum, and what rounding took from it.
#[derive(Clone, Copy, Default)]
struct Sum {
    sum: f64,
    lost: f64,
}

impl Sum {
    fn of(x: f64) -> Sum {
        Sum { sum: x, lost: 0.0 }
    }

    fn plus_product(self, x: f64, y: f64) -> Sum {
        let term = x * y;
        let next = self.sum + term;
        let part = next - self.sum;
        let lost = x.mul_add(y, -term) + ((self.sum - (next - part)) + (term - part));
        Sum { sum: next, lost: self.lost + lost }
    }

    /// Plus such a sum times a number.
    fn plus_times(self, x: Sum, y: f64) -> Sum {
        let next = self.plus_product(x.sum, y);
        Sum { lost: next.lost + x.lost * y, ..next }
    }

    fn rounded(self) -> f64 {
        self.sum + self.lost
    }
}

pub fn greatest(xs: impl IntoIterator<Item = f64>) -> f64 {
    xs.into_iter().fold(0.0, |most, x| x.abs().max(most))
}

pub fn norm(n: usize, a: &[f64]) -> f64 {
    greatest((0..n).map(|i| (0..n).map(|j| a[i + j * n].abs()).sum()))
}

/// ‖Ax − b‖.
pub fn residual(n: usize, a: &[f64], x: &[f64], b: &[f64]) -> f64 {
    let row = |i: usize| (0..n).fold(Sum::of(-b[i]), |sum, j| sum.plus_product(a[i + j * n], x[j]));
    greatest((0..n).map(|i| row(i).rounded()))
}

/// ‖|L|·|D|·|L|ᵀ‖: the three applied to a vector of ones.
pub fn grown(f: &Factored) -> f64 {
    let n = f.n;
    let first: Vec<f64> = (0..n).map(|j| (j..n).map(|i| f.l(i, j).abs()).sum()).collect();
    let second: Vec<f64> = (0..n).map(|k| f.column_of_d(k).iter().map(|&(i, d)| d.abs() * first[i]).sum()).collect();
    greatest((0..n).map(|i| (0..=i).map(|j| f.l(i, j).abs() * second[j]).sum()))
}

/// ‖A − L·D·Lᵀ‖, with the rows and columns of A in the factor's order.
pub fn left_of(a: &[f64], f: &Factored) -> f64 {
    let n = f.n;
    let mut rows = vec![0.0; n];
    for i in 0..n {
        let product = |k: usize| {
            let d = f.column_of_d(k).into_iter().filter(|&(at, _)| at <= i);
            d.fold(Sum::default(), |sum, (at, d)| sum.plus_product(f.l(i, at), d))
        };
        let row: Vec<Sum> = (0..=i).map(product).collect();
        for j in 0..=i {
            let given = Sum::of(-a[f.order[i] + f.order[j] * n]);
            let left = (0..=j).fold(given, |sum, k| sum.plus_times(row[k], f.l(j, k))).rounded().abs();
            rows[i] += left;
            if i != j {
                rows[j] += left;
            }
        }
    }
    greatest(rows)
}
