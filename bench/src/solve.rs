//! The library's solve and LAPACK's dsytrs on the same systems, in turn: one right
//! side to a call, each side with its own factor of the same matrix. The library's
//! answers are compared by bits first. A run is several calls, each with a right side
//! of its own: a small one takes little longer than the clock.

use crate::{clocked, node, number, shape, Shape, NODES, ROUNDS};
use misuktaan::Factors;
use oracle::case::{Factor, Solve};
use oracle::random::Rng;
use oracle::solve::AS_WRITTEN;

/// In one panel where that may be.
const SHAPES: [Shape; 3] = [shape(128, 128, 64, 500, 1.00), shape(32, 32, 32, 500, 1.00), shape(8, 8, 8, 500, 1.00)];

/// The calls of a run: so many that runs of all sizes take about as long.
fn calls(n: usize) -> usize {
    (16_384 / (n * n)).max(1)
}

// ---- LAPACK

#[cfg(lapack)]
use crate::lapack;

/// What dsytf2 left.
#[cfg(lapack)]
struct Theirs {
    n: usize,
    factor: Vec<f64>,
    pivots: Vec<i32>,
}

#[cfg(lapack)]
impl Theirs {
    fn new(f: &Factor) -> Theirs {
        let n = f.settings.ncol;
        let (mut factor, mut pivots) = (f.panel.clone(), vec![0; n]);
        lapack::dsytf2(n, &mut factor, &mut pivots);
        Theirs { n, factor, pivots }
    }

    fn solve(&self, vectors: &mut [f64]) -> f64 {
        clocked(|| vectors.chunks_exact_mut(self.n).for_each(|b| lapack::dsytrs(self.n, &self.factor, &self.pivots, b)))
    }
}

#[cfg(not(lapack))]
struct Theirs;

#[cfg(not(lapack))]
impl Theirs {
    fn new(_: &Factor) -> Theirs {
        Theirs
    }

    fn solve(&self, _: &mut [f64]) -> f64 {
        f64::NAN
    }
}

// ---- the runs

/// The library's calls, and the microseconds that they take.
fn ours(n: usize, f: &Factors, vectors: &mut [f64]) -> f64 {
    let call = |b: &mut [f64]| misuktaan::solve(n, n, &f.panel, &f.d, &f.sub, &f.blocks, &f.order, b).is_ok();
    clocked(|| assert!(vectors.chunks_exact_mut(n).all(call), "refused"))
}

/// A system with what its runs need, and the best times of a call so far, in nanoseconds: LAPACK, the library.
struct Timed {
    n: usize,
    factors: Factors,
    theirs: Theirs,
    given: Vec<f64>,
    vectors: Vec<f64>,
    best: [f64; 2],
}

impl Timed {
    fn new(rng: &mut Rng, shape: &Shape) -> Timed {
        let (n, f) = (shape.ncol, node(rng, shape));
        let left = crate::call::left(&f);
        left.outcome.expect("factored");
        let given: Vec<f64> = (0..n * calls(n)).map(|_| number(rng)).collect();
        let (factors, theirs, vectors) = (left.buffers, Theirs::new(&f), given.clone());
        let mut timed = Timed { n, factors, theirs, given, vectors, best: [f64::INFINITY; 2] };
        timed.compare();
        timed
    }

    /// Stops unless the library answers what the text says, bit for bit, and LAPACK something near to it.
    fn compare(&mut self) {
        let (n, f) = (self.n, &self.factors);
        let (panel, d, sub) = (f.panel.clone(), f.d.clone(), f.sub.clone());
        let (blocks, order) = (f.blocks.clone(), f.order.clone());
        let mut system = Solve { ncol: n, nrow: n, panel, d, sub, blocks, order, vector: Vec::new() };
        ours(n, f, &mut self.vectors);
        for (b, x) in self.given.chunks_exact(n).zip(self.vectors.chunks_exact(n)) {
            system.vector = b.to_vec();
            let must = AS_WRITTEN.answer(&system).expect("accepted");
            assert!(must.iter().zip(x).all(|(x, y)| x.to_bits() == y.to_bits()), "the library differs");
        }
        let mut near = self.given.clone();
        if !self.theirs.solve(&mut near).is_nan() {
            let greatest = self.vectors.iter().fold(0.0, |most: f64, x| most.max(x.abs()));
            assert!(near.iter().zip(&self.vectors).all(|(x, y)| (x - y).abs() <= 1e-6 * greatest), "LAPACK differs");
        }
    }

    /// So many runs of each in turn. Both sides solve in the same place, which is freshly written.
    fn run(&mut self, runs: usize) {
        for _ in 0..runs {
            self.vectors.copy_from_slice(&self.given);
            let theirs = self.theirs.solve(&mut self.vectors);
            self.vectors.copy_from_slice(&self.given);
            let ours = ours(self.n, &self.factors, &mut self.vectors);
            for (least, time) in self.best.iter_mut().zip([theirs, ours]) {
                let of_a_call = 1000.0 * time / calls(self.n) as f64;
                *least = if of_a_call < *least { of_a_call } else { *least };
            }
        }
    }
}

/// The best times of all systems, printed.
pub fn timed(seed: u64, part: usize) {
    let mut rng = Rng::new(seed);
    let mut systems: Vec<Vec<Timed>> =
        SHAPES.iter().map(|shape| (0..NODES).map(|_| Timed::new(&mut rng, shape)).collect()).collect();
    for _ in 0..ROUNDS {
        for (shape, systems) in SHAPES.iter().zip(&mut systems) {
            systems.iter_mut().for_each(|system| system.run(shape.runs_in(part)));
        }
    }
    println!("seed {seed}");
    for (shape, systems) in SHAPES.iter().zip(&systems) {
        shape.print(part, systems.iter().map(|system| &system.factors));
        systems.iter().for_each(|Timed { best: [theirs, ours], .. }| println!("node {theirs:.1} {ours:.1}"));
    }
}
