//! The benchmark: the reference's `ll_cdiv_emit` and the library's factor call on
//! the same nodes, in turn, and LAPACK's dsytf2 on their heads. The answers of
//! the two are compared by bits first. Arguments: the seed, and a number by which
//! the repetitions are divided. A line a shape and one for each of its nodes are
//! printed, for `report`. `solve` before them times the solve call instead. `inputs`
//! and the seed, and `once`, are for `layers`.

mod apart;
#[allow(dead_code)]
#[path = "../../oracle/src/compare/call.rs"]
mod call;
#[cfg(lapack)]
#[path = "../../oracle/src/compare/fortran.rs"]
mod lapack;
mod once;
mod solve;

use misuktaan::Factors;
use oracle::case::{Factor, Mode, Settings};
use oracle::random::Rng;
use rslab::reach::timed::Prepared;
use std::time::Instant;

#[global_allocator]
static MEMORY: apart::Apart = apart::Apart::new();

/// A shape: columns, rows, panel width; how often each of its nodes is run in a
/// round; the ratio that is aimed at.
struct Shape {
    ncol: usize,
    nrow: usize,
    nb: usize,
    runs: usize,
    target: f64,
}

const fn shape(ncol: usize, nrow: usize, nb: usize, runs: usize, target: f64) -> Shape {
    Shape { ncol, nrow, nb, runs, target }
}

const SHAPES: [Shape; 7] = [
    shape(128, 1024, 64, 8, 0.30),
    shape(128, 512, 32, 16, 0.36),
    shape(128, 128, 64, 100, 0.50),
    shape(64, 64, 16, 500, 0.55),
    shape(32, 256, 32, 500, 0.95),
    shape(16, 128, 16, 2_000, 1.00),
    shape(8, 64, 8, 5_000, 1.00),
];

impl Shape {
    fn runs_in(&self, part: usize) -> usize {
        (self.runs / part).max(1)
    }

    /// The shape's line, with the share of the columns that are in blocks.
    fn print<'a>(&self, part: usize, factors: impl Iterator<Item = &'a Factors>) {
        let &Shape { ncol, nrow, nb, target, .. } = self;
        let blocks: usize = factors.map(|f| f.blocks.iter().filter(|&&b| b == 1).count()).sum();
        let (runs, share) = (ROUNDS * self.runs_in(part), (2 * blocks) as f64 / (NODES * ncol) as f64);
        println!("shape {ncol} {nrow} {nb} {runs} {target:.2} {share:.2}");
    }
}

/// Nodes of each shape. The time of a shape is the mean over them of the best run.
const NODES: usize = 4;

/// All shapes are run in turn, over and over: what else the machine does for some seconds meets none of them alone.
const ROUNDS: usize = 20;

/// From -1 to 1.
fn number(rng: &mut Rng) -> f64 {
    (rng.next() >> 11) as f64 / (1u64 << 52) as f64 - 1.0
}

/// A node: numbers from -1 to 1, every other diagonal a hundredth of that, so that
/// 1x1 pivots and blocks both come up.
fn node(rng: &mut Rng, shape: &Shape) -> Factor {
    let &Shape { ncol, nrow, nb, .. } = shape;
    let mut panel: Vec<f64> = (0..nrow * ncol).map(|_| number(rng)).collect();
    (0..ncol).step_by(2).for_each(|k| panel[k + k * nrow] /= 100.0);
    Factor { settings: Settings { ncol, nrow, nb, mode: Mode::Fail, limit: 1 }, panel, lengths: None }
}

/// The nodes of each shape.
fn nodes(seed: u64) -> Vec<Vec<Factor>> {
    let mut rng = Rng::new(seed);
    SHAPES.iter().map(|shape| (0..NODES).map(|_| node(&mut rng, shape)).collect()).collect()
}

// ---- LAPACK

/// The best of dsytf2's runs on the head, the copy of it apart.
#[cfg(lapack)]
struct Square {
    head: Vec<f64>,
    work: Vec<f64>,
    pivots: Vec<i32>,
    n: usize,
}

#[cfg(lapack)]
impl Square {
    fn new(f: &Factor) -> Square {
        let (n, nrow) = (f.settings.ncol, f.settings.nrow);
        let head: Vec<f64> = (0..n * n).map(|at| f.panel[at % n + at / n * nrow]).collect();
        Square { work: head.clone(), head, pivots: vec![0; n], n }
    }

    fn run(&mut self) -> f64 {
        self.work.copy_from_slice(&self.head);
        clocked(|| lapack::dsytf2(self.n, &mut self.work, &mut self.pivots))
    }
}

#[cfg(not(lapack))]
struct Square;

#[cfg(not(lapack))]
impl Square {
    fn new(_: &Factor) -> Square {
        Square
    }

    fn run(&mut self) -> f64 {
        f64::NAN
    }
}

// ---- the runs

/// Microseconds that `f` takes.
fn clocked<R>(f: impl FnOnce() -> R) -> f64 {
    let begin = Instant::now();
    std::hint::black_box(f());
    begin.elapsed().as_nanos() as f64 / 1000.0
}

/// Stops unless the library answers and leaves in all of its buffers what the oracle says, and the timed run of the
/// reference leaves the same bits.
fn compare(f: &Factor, prepared: &Prepared) {
    let got = call::left(f);
    if let Some(how) = call::difference(f, &got, &call::must(f)) {
        panic!("the library differs: {how}");
    }
    prepared.ready();
    assert!(prepared.run(), "the reference stopped");
    let timed = prepared.factored();
    let bits = |xs: &[f64]| xs.iter().map(|x| x.to_bits()).collect::<Vec<u64>>();
    assert!(
        bits(&timed.panel) == bits(&got.buffers.panel)
            && bits(&timed.d) == bits(&got.buffers.d)
            && bits(&timed.sub) == bits(&got.buffers.sub)
            && timed.order == got.buffers.order
            && timed.blocks.iter().map(|&b| u8::from(b)).eq(got.buffers.blocks.iter().copied())
            && got.outcome.is_ok_and(|report| report.inertia == call::counted(timed.inertia)),
        "the timed run of the reference differs"
    );
}

/// A node with what its runs need, and the best times so far: the reference, the library, dsytf2.
struct Timed {
    node: Factor,
    prepared: Prepared,
    input: Vec<f64>,
    factors: Factors,
    square: Square,
    best: [f64; 3],
}

impl Timed {
    /// Compared first: no time of a wrong answer is taken.
    fn new(node: Factor) -> Timed {
        let Settings { ncol, nrow, nb, .. } = node.settings;
        let prepared = Prepared::new(ncol, nrow, nb, &node.panel);
        compare(&node, &prepared);
        let (input, square) = (node.panel.clone(), Square::new(&node));
        Timed { prepared, input, factors: Factors::zeros(ncol, nrow, nb), square, best: [f64::INFINITY; 3], node }
    }

    /// So many runs of each in turn. Both sides find their panel freshly written.
    fn run(&mut self, runs: usize) {
        let Settings { ncol, nrow, nb, limit, .. } = self.node.settings;
        let settings = misuktaan::Settings { ncol, nrow, nb, mode: misuktaan::Mode::Fail, limit };
        for _ in 0..runs {
            self.prepared.ready();
            let reference = clocked(|| self.prepared.run());
            self.input.copy_from_slice(&self.node.panel);
            let library = clocked(|| misuktaan::factor(&settings, &self.input, self.factors.lend()));
            for (least, time) in self.best.iter_mut().zip([reference, library, self.square.run()]) {
                *least = if time < *least { time } else { *least };
            }
        }
    }
}

/// The best times of all nodes, printed.
fn timed(seed: u64, part: usize) {
    let mut nodes: Vec<Vec<Timed>> =
        nodes(seed).into_iter().map(|of| of.into_iter().map(Timed::new).collect()).collect();
    for _ in 0..ROUNDS {
        for (shape, nodes) in SHAPES.iter().zip(&mut nodes) {
            nodes.iter_mut().for_each(|node| node.run(shape.runs_in(part)));
        }
    }
    println!("seed {seed}");
    for (shape, nodes) in SHAPES.iter().zip(&nodes) {
        shape.print(part, nodes.iter().map(|node| &node.factors));
        nodes.iter().for_each(|Timed { best: [rust, ours, square], .. }| println!("node {rust:.3} {ours:.3} {square:.3}"));
    }
}

fn main() {
    let words: Vec<String> = std::env::args().skip(1).collect();
    let number = |at: usize| words.get(at).map_or(1, |word| word.parse().expect("a number"));
    match words.first().map(String::as_str) {
        Some("inputs") => once::inputs(&nodes(number(1))),
        Some("once") => once::calls(),
        Some("solve") => solve::timed(number(1), number(2) as usize),
        _ => timed(number(0), number(1) as usize),
    }
}
