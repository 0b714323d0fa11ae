//! Symmetric indefinite matrices that are well-conditioned, of a few kinds.

use oracle::random::{self, Rng};

// ---- numbers

/// A number from lo to hi.
fn between(rng: &mut Rng, lo: f64, hi: f64) -> f64 {
    lo + (hi - lo) * ((rng.next() >> 11) as f64 / (1u64 << 53) as f64)
}

fn sign(rng: &mut Rng) -> f64 {
    rng.one_of(&[-1.0, 1.0])
}

pub fn random_numbers(rng: &mut Rng, n: usize) -> Vec<f64> {
    (0..n).map(|_| between(rng, -1.0, 1.0)).collect()
}

/// What stands below the diagonal, above it too.
fn mirrored(n: usize, mut a: Vec<f64>) -> Vec<f64> {
    for (i, j) in (0..n).flat_map(|j| (j..n).map(move |i| (i, j))) {
        a[j + i * n] = a[i + j * n];
    }
    a
}

fn times(n: usize, a: &[f64], x: &[f64]) -> Vec<f64> {
    (0..n).map(|i| (0..n).map(|j| a[i + j * n] * x[j]).sum()).collect()
}

// ---- matrices

/// Eigenvalues of magnitude 1 to 10 and either sign, mixed by n reflections I − 2vvᵀ. The condition is 10 at most.
fn mixed(rng: &mut Rng, n: usize, _: usize) -> Vec<f64> {
    let mut a = vec![0.0; n * n];
    (0..n).for_each(|k| a[k + k * n] = sign(rng) * between(rng, 1.0, 10.0));
    for _ in 0..n {
        let v = random_numbers(rng, n);
        let length = v.iter().map(|x| x * x).sum::<f64>().sqrt();
        let v: Vec<f64> = v.iter().map(|x| x / length).collect();
        let w = times(n, &a, &v);
        let c: f64 = v.iter().zip(&w).map(|(x, y)| x * y).sum();
        for (i, j) in (0..n).flat_map(|j| (j..n).map(move |i| (i, j))) {
            a[i + j * n] += 4.0 * c * v[i] * v[j] - 2.0 * (v[i] * w[j] + w[i] * v[j]);
        }
        a = mirrored(n, a);
    }
    a
}

/// Each diagonal of either sign is greater by 1 to 2 than the rest of its row together.
fn dominant(rng: &mut Rng, n: usize, _: usize) -> Vec<f64> {
    let numbers = random_numbers(rng, n * n);
    let mut a = mirrored(n, numbers);
    for k in 0..n {
        let rest: f64 = (0..n).filter(|&i| i != k).map(|i| a[i + k * n].abs()).sum();
        a[k + k * n] = sign(rng) * (rest + between(rng, 1.0, 2.0));
    }
    a
}

/// The columns of each panel in pairs with 1 to 10 in their crossing; all else is so small that it moves no eigenvalue
/// by more than a quarter. The pivots are blocks.
fn paired(rng: &mut Rng, n: usize, nb: usize) -> Vec<f64> {
    let mut a: Vec<f64> = random_numbers(rng, n * n).iter().map(|x| x / (4 * n) as f64).collect();
    for first in (0..n).step_by(nb) {
        let columns = random::permutation(rng, nb.min(n - first));
        for pair in columns.chunks(2) {
            let (i, j) = (first + pair[0], first + pair[pair.len() - 1]);
            a[i.max(j) + i.min(j) * n] += sign(rng) * between(rng, 1.0, 10.0);
        }
    }
    mirrored(n, a)
}

// ---- their kinds

pub struct Kind {
    pub name: &'static str,
    pub matrix: fn(&mut Rng, usize, usize) -> Vec<f64>,
    /// The panel widths for so many columns, the least and the most.
    pub widths: fn(usize) -> (usize, usize),
    pub most: usize,
    /// A panel's search is as good as the whole column's.
    pub searched: bool,
}

pub const KINDS: [Kind; 4] = [
    Kind { name: "mixed, one panel", matrix: mixed, widths: |n| (n, 64), most: 64, searched: true },
    Kind { name: "dominant", matrix: dominant, widths: |_| (1, 64), most: 128, searched: true },
    Kind { name: "paired", matrix: paired, widths: |_| (2, 64), most: 128, searched: true },
    Kind { name: "mixed, several panels", matrix: mixed, widths: |n| (1, n.min(65) - 1), most: 128, searched: false },
];

/// The classes of sizes.
pub const SIZES: [(usize, usize); 4] = [(2, 8), (9, 32), (33, 64), (65, 128)];
