//! Hand-made cases of solve: stations, each with its answer worked out by hand, and
//! cases that tell the text from a wrong reading of it (`readings.rs`).

use crate::case::*;

/// A system in the making.
struct System(Solve);

/// 1x1 pivots over an L of zeros, in the order 0, 1, 2, ..; the panel has d on its
/// diagonal.
fn diagonal(d: &[f64], vector: &[f64]) -> System {
    let n = d.len();
    let mut panel = vec![0.0; n * n];
    (0..n).for_each(|k| panel[k + k * n] = d[k]);
    let (sub, blocks, order) = (vec![0.0; n], vec![0; n], (0..n).collect());
    System(Solve { ncol: n, nrow: n, panel, d: d.to_vec(), sub, blocks, order, vector: vector.to_vec() })
}

/// One block, with its d21 in the panel too.
fn block(d: [f64; 2], d21: f64, vector: [f64; 2]) -> System {
    diagonal(&d, &vector).l(1, 0, d21).block(0, d21)
}

impl System {
    /// The panel's number at a row and a column.
    fn at(mut self, i: usize, j: usize, x: f64) -> System {
        self.0.panel[i + j * self.0.nrow] = x;
        self
    }

    /// The panel's number below the diagonal, and the same above: who reads the one
    /// for the other is told by other cases.
    fn l(self, i: usize, j: usize, x: f64) -> System {
        self.at(i, j, x).at(j, i, x)
    }

    /// A block at k with this d21 in the subdiagonal.
    fn block(mut self, k: usize, d21: f64) -> System {
        (self.0.blocks[k], self.0.sub[k]) = (1, d21);
        self
    }

    fn order(mut self, order: &[usize]) -> System {
        self.0.order = order.to_vec();
        self
    }

    /// Something else changed.
    fn with(mut self, change: impl Fn(&mut Solve)) -> System {
        change(&mut self.0);
        self
    }
}

// ---- stations

/// A case and the answer that it must have.
pub struct Station {
    pub name: &'static str,
    pub case: Solve,
    pub answer: Result<Vec<f64>, Refusal>,
}

fn solved(name: &'static str, system: System, x: &[f64]) -> Station {
    Station { name, case: system.0, answer: Ok(x.to_vec()) }
}

fn refused(name: &'static str, system: System, number: usize, a: usize) -> Station {
    Station { name, case: system.0, answer: Err(Refusal { number, a, b: 0 }) }
}

/// The factor of [1,2; 8], whose rows are exchanged.
fn exchanged(vector: [f64; 2]) -> System {
    diagonal(&[8.0, 0.5], &vector).at(1, 0, 0.25).order(&[1, 0])
}

/// The factor of [0,1; 0] with a lift of 4, of which the panel knows nothing.
fn lifted_block() -> System {
    block([4.0; 2], 1.0, [9.0, 6.0]).at(0, 0, 0.0).at(1, 1, 0.0)
}

/// Those of docs/SCOPE.md, "Stations", and corner cases.
pub fn stations() -> Vec<Station> {
    [accepted(), shapes_and_lengths(), lists()].into_iter().flatten().collect()
}

fn accepted() -> Vec<Station> {
    let (inf, nan, tiny) = (f64::INFINITY, f64::NAN, 0.5f64.powi(60));
    vec![
        solved("no column", diagonal(&[], &[]), &[]),
        solved("[4], 6", diagonal(&[4.0], &[6.0]), &[1.5]),
        solved("[1,2; 8], 5 18", exchanged([5.0, 18.0]), &[1.0, 2.0]),
        solved("[0,1; 0], 2 3", block([0.0; 2], 1.0, [2.0, 3.0]), &[3.0, 2.0]),
        solved("[0,1; 0] lifted by 4, 9 6", lifted_block(), &[2.0, 1.0]),
        solved(
            "a 1x1, then a block",
            diagonal(&[2.0, 0.0, 0.0], &[18.0, 55.0, 91.0]).l(1, 0, 3.0).l(2, 0, 5.0).l(2, 1, 1.0).block(1, 1.0),
            &[1.0; 3],
        ),
        solved(
            "a block, then a 1x1",
            diagonal(&[0.0, 0.0, 2.0], &[6.0, 4.0, 40.0]).l(1, 0, 1.0).l(2, 0, 3.0).l(2, 1, 5.0).block(0, 1.0),
            &[1.0; 3],
        ),
        solved(
            "a block 1, 2, 3 over a panel of not-a-numbers, 5 8",
            block([1.0, 3.0], 2.0, [5.0, 8.0]).with(|s| s.panel.fill(f64::NAN)),
            &[1.0, 2.0],
        ),
        solved(
            "three 1x1s of 1, L 0, 1 and 2^-60, 1 1 1",
            diagonal(&[1.0; 3], &[1.0; 3]).l(2, 0, 1.0).l(2, 1, tiny),
            &[1.0, 1.0, -tiny],
        ),
        solved(
            "three 1x1s of 1, L 2^-60, 1 and 0, 1 1 2",
            diagonal(&[1.0; 3], &[1.0, 1.0, 2.0]).l(1, 0, tiny).l(2, 0, 1.0),
            &[-tiny, 1.0, 1.0],
        ),
        solved("[1,0; 1], -0 -1", diagonal(&[1.0; 2], &[-0.0, -1.0]), &[0.0, -1.0]),
        solved("-0", diagonal(&[1.0], &[-0.0]), &[-0.0]),
        solved("a pivot of zero", diagonal(&[0.0; 2], &[1.0, 0.0]), &[nan, nan]),
        solved("2^-1074, whose reciprocal is infinite", diagonal(&[f64::from_bits(1)], &[-1.0]), &[-inf]),
        solved("an infinite pivot", diagonal(&[-inf], &[1.0]), &[-0.0]),
        solved("a not-a-number in L", diagonal(&[1.0; 2], &[1.0; 2]).l(1, 0, nan), &[nan; 2]),
        solved("a not-a-number above the diagonal", diagonal(&[1.0; 2], &[1.0; 2]).at(0, 1, nan), &[1.0; 2]),
        solved("a not-a-number beside a 1x1", diagonal(&[1.0], &[1.0]).with(|s| s.sub[0] = f64::NAN), &[1.0]),
        solved("128 columns", diagonal(&[2.0; 128], &[3.0; 128]), &[1.5; 128]),
    ]
}

/// Refusals 1 and 25.
fn shapes_and_lengths() -> Vec<Station> {
    let three = || diagonal(&[1.0; 3], &[1.0; 3]);
    vec![
        refused("129 columns", diagonal(&[], &[]).with(|s| (s.ncol, s.nrow) = (129, 129)), 1, 0),
        refused("[4], tail 6, 1", diagonal(&[4.0], &[1.0]).with(|s| (s.nrow, s.panel) = (2, vec![4.0, 1.5])), 1, 0),
        refused("more columns than rows", three().with(|s| s.nrow = 2), 1, 0),
        refused("a short panel", three().with(|s| _ = s.panel.pop()), 25, 0),
        refused("a long d", three().with(|s| s.d.push(1.0)), 25, 0),
        refused("a short subdiagonal", three().with(|s| _ = s.sub.pop()), 25, 0),
        refused("long block bytes", three().with(|s| s.blocks.push(0)), 25, 0),
        refused("a short order", three().with(|s| _ = s.order.pop()), 25, 0),
        refused("a long vector", three().with(|s| s.vector.push(1.0)), 25, 0),
    ]
}

/// Refusals 26, 16 and 27.
fn lists() -> Vec<Station> {
    let three = || diagonal(&[1.0; 3], &[1.0; 3]);
    let bytes = |bytes: [u8; 3]| three().with(|s| s.blocks = bytes.to_vec());
    let sides = |b: [f64; 3]| three().with(|s| s.vector = b.to_vec());
    let byte_and_side = || exchanged([f64::INFINITY, 18.0]).with(|s| s.blocks[0] = 2);
    vec![
        refused("[1,2; 8], 5 18, order 0 0", exchanged([5.0, 18.0]).order(&[0, 0]), 26, 1),
        refused("[1,2; 8], an infinity, block bytes 2 0, order 0 0", byte_and_side().order(&[0, 0]), 26, 1),
        refused("[1,2; 8], an infinity, block bytes 2 0", byte_and_side(), 16, 0),
        refused("[1,2; 8], 5 and an infinity", exchanged([5.0, f64::INFINITY]), 27, 1),
        refused("order 0 1 3", three().order(&[0, 1, 3]), 26, 2),
        refused("order 0 0 1", three().order(&[0, 0, 1]), 26, 1),
        refused("order 2 2 9", three().order(&[2, 2, 9]), 26, 1),
        refused("order 9 2 2", three().order(&[9, 2, 2]), 26, 0),
        refused("block bytes 0 2 1", bytes([0, 2, 1]), 16, 1),
        refused("block bytes 0 0 1", bytes([0, 0, 1]), 16, 2),
        refused("block bytes 1 1 0", bytes([1, 1, 0]), 16, 0),
        refused("an infinite right side", sides([1.0, f64::NEG_INFINITY, f64::NAN]), 27, 1),
        refused("a right side that is a not-a-number", sides([1.0, 1.0, f64::NAN]), 27, 2),
    ]
}

// ---- telling cases

/// For each wrong reading cases that it answers otherwise.
pub fn telling() -> Vec<(&'static str, Solve)> {
    let all = [checks(), places(), orders(), forwards(), backs(), pivots()];
    all.into_iter().flatten().map(|(name, system)| (name, system.0)).collect()
}

type Told = (&'static str, System);

fn two() -> System {
    diagonal(&[1.0; 2], &[1.0; 2])
}

fn checks() -> Vec<Told> {
    let (inf, nan) = (f64::INFINITY, f64::NAN);
    let byte = |s: &mut Solve| s.blocks[0] = 2;
    let side = |s: &mut Solve| s.vector[0] = f64::INFINITY;
    vec![
        ("1 for tail rows", two().with(|s| (s.nrow, s.panel) = (3, vec![1.0; 6]))),
        ("1 before 25", two().with(|s| s.nrow = 1)),
        ("26 before 16", two().order(&[0, 7]).with(byte)),
        ("26 before 27", two().order(&[0, 7]).with(side)),
        ("16 before 27", two().with(byte).with(side)),
        ("a not-a-number in L taken", two().l(1, 0, nan)),
        ("an infinite L taken", two().l(1, 0, inf)),
        ("a not-a-number for d taken", diagonal(&[nan, 1.0], &[1.0; 2])),
        ("an infinite d taken", diagonal(&[inf, 1.0], &[1.0; 2])),
        ("a not-a-number beside a 1x1 taken", two().with(|s| s.sub[1] = f64::NAN)),
        ("an infinite d21 taken", block([1.0; 2], inf, [1.0; 2])),
        ("a d of zero taken", diagonal(&[0.0], &[1.0])),
        ("a block of zeros taken", block([0.0; 2], 0.0, [1.0; 2])),
    ]
}

fn places() -> Vec<Told> {
    let sides = |b: [f64; 2]| diagonal(&[1.0; 2], &b);
    vec![
        ("26: repeated, then out of range", diagonal(&[1.0; 3], &[1.0; 3]).order(&[1, 1, 3])),
        ("26: out of range, then repeated", diagonal(&[1.0; 3], &[1.0; 3]).order(&[3, 1, 1])),
        ("26: the later of two", diagonal(&[1.0; 3], &[1.0; 3]).order(&[0, 2, 2])),
        ("27: infinite", sides([1.0, f64::INFINITY])),
        ("27: the least index and not the first in the order", sides([f64::NAN; 2]).order(&[1, 0])),
        ("27: an index and not a position", sides([1.0, f64::NAN]).order(&[1, 0])),
    ]
}

fn orders() -> Vec<Told> {
    vec![
        ("the order undone", diagonal(&[1.0, 2.0], &[2.0, 2.0]).order(&[1, 0])),
        ("the order taken", two().with(|s| s.vector = vec![3.0, 2.0]).l(1, 0, 1.0).order(&[1, 0])),
        ("the order this way round", diagonal(&[1.0, 2.0, 4.0], &[1.0, 2.0, 3.0]).order(&[1, 2, 0])),
        ("the order and no exchanges", diagonal(&[1.0, 1.0, 1.0], &[1.0, 2.0, 3.0]).order(&[1, 2, 0]).l(1, 0, 1.0)),
    ]
}

/// 2^1023: twice of it is infinite.
const HUGE: f64 = f64::from_bits(2046 << 52);
/// 2^-53: half of what comes after 1.
const HALF: f64 = f64::EPSILON / 2.0;
/// The square of 1 + BIT loses its last bit.
const BIT: f64 = 1.0 / (1u64 << 30) as f64;

/// Three columns with L of 1 in the last row.
fn last_row(d: &[f64], vector: &[f64]) -> System {
    diagonal(d, vector).l(2, 0, 1.0).l(2, 1, 1.0)
}

/// Three columns with L of 1 in the first column.
fn first_column(d: &[f64], vector: &[f64]) -> System {
    diagonal(d, vector).l(1, 0, 1.0).l(2, 0, 1.0)
}

fn forwards() -> Vec<Told> {
    let scaled = 1.0 / (HUGE / 8.0);
    vec![
        ("forward by rising position", last_row(&[1.0, 1.0, 1.0 / scaled], &[-HUGE, HUGE, -HUGE])),
        ("no L inside a block, forward", block([1.0, 0.0], 1.0, [2.0, 2.0])),
        ("L below the diagonal, forward", two().at(1, 0, 1.0).at(0, 1, 5.0)),
        ("a diagonal of ones, forward", diagonal(&[2.0, 1.0], &[2.0, 3.0]).l(1, 0, 1.0)),
        ("a zero of L applied to -1, forward", diagonal(&[1.0; 2], &[-1.0, -0.0])),
        ("a zero of L applied to an infinite y", diagonal(&[1.0; 3], &[HUGE, 0.0, 1.0]).l(1, 0, -2.0)),
        ("-1 applied to a zero, forward", diagonal(&[1.0; 2], &[0.0, -0.0]).l(1, 0, -1.0)),
        ("an infinite L applied to a zero, forward", diagonal(&[1.0; 2], &[0.0, 1.0]).l(1, 0, f64::INFINITY)),
        ("not fused forward", diagonal(&[1.0; 2], &[1.0 + BIT, 1.0 + 2.0 * BIT]).l(1, 0, 1.0 + BIT)),
        ("one term after another, forward", last_row(&[1.0; 3], &[-HALF, -HALF, 1.0])),
    ]
}

fn backs() -> Vec<Told> {
    let small = 8.0 / HUGE;
    vec![
        ("back by falling position", first_column(&[small; 3], &[-8.0, 0.0, -16.0])),
        ("no L inside a block, back", block([1.0, 0.0], 1.0, [0.0, 2.0])),
        ("L below the diagonal, back", diagonal(&[1.0; 2], &[0.0, 1.0]).at(1, 0, 1.0).at(0, 1, 5.0)),
        ("a diagonal of ones, back", diagonal(&[2.0, 1.0], &[0.0, 1.0]).l(1, 0, 1.0)),
        ("a zero of L applied to -1, back", diagonal(&[1.0; 2], &[-0.0, -1.0])),
        ("a zero of L applied to an infinite x", diagonal(&[1.0, f64::from_bits(1)], &[1.0, 1.0])),
        ("-1 applied to a zero, back", diagonal(&[-1.0, 1.0], &[0.0, 0.0]).l(1, 0, -1.0)),
        ("not fused back", diagonal(&[1.0; 2], &[1.0 + 2.0 * BIT, 2.0 + 4.0 * BIT]).l(1, 0, 1.0 + BIT)),
        ("one term after another, back", first_column(&[1.0; 3], &[1.0, 1.0 - HALF, 1.0 - HALF])),
    ]
}

fn pivots() -> Vec<Told> {
    let tiny = BIT * 8.0;
    vec![
        ("y·(1/d) and not y/d", diagonal(&[3.0], &[5.0])),
        ("d by position and not by row", diagonal(&[1.0, 2.0], &[3.0, 5.0]).order(&[1, 0])),
        ("d and not the panel's diagonal", diagonal(&[2.0], &[1.0]).at(0, 0, 4.0)),
        ("d11 and d22 each in its place", block([1.0, 2.0], 1.0, [1.0, 3.0])),
        ("a block by 1/det and not divided", block([3.0, 1.0], 0.0, [5.0, 0.0])),
        ("a block not inverted first", block([7.0, 3.0], 3.0, [5.0, 3.0])),
        ("a block not scaled by d21", block([7.0, 3.0], 1.0, [5.0, 3.0])),
        ("a block with a d21 of zero", block([2.0, 4.0], 0.0, [1.0, 1.0])),
        ("a block's second from the old first", block([2.0, 1.0], 1.0, [5.0, 3.0])),
        ("d21 at a block's first position", block([0.0, 0.0], 1.0, [2.0, 3.0]).with(|s| s.sub[1] = 8.0)),
        ("a lifted block by d and not by the panel", lifted_block()),
        ("a block's first product not fused", block([1.0 + BIT, 0.0], 1.0, [1.0 + 2.0 * BIT, 1.0 + BIT])),
        ("a block's second product not fused", block([0.0, 1.0], 1.0 + BIT, [1.0 + 2.0 * BIT, 1.0 + BIT])),
        ("d21·d21 not fused in det", block([1.5 * tiny, -tiny], 1.0 + tiny, [1.0, 0.0])),
        ("d11·d22 not fused in det", block([0.5234648976475, 0.6219641659408808], 1.0, [1.0, 0.0])),
    ]
}
