//! Systems for solve calls. Each once: sizes and lengths at their bounds and beyond, every small order and list of
//! block bytes, every choice of faults in one call, every small system over a few numbers. Seeded: every block pattern,
//! small systems and large ones, with the factor of a node that the library has factored or with any numbers.

use crate::call;
use crate::lists::{lists, stretch, MAX, WRAPS};
use oracle::case::*;
use oracle::random::{self, held, Bounds, Rng};
use oracle::systems;

type Each<'a> = &'a mut dyn FnMut(Solve);

/// Numbers with which a small system has a finite solution.
fn mild(n: usize) -> Vec<f64> {
    [0.5, -2.0, 3.0, 0.25, -1.5].into_iter().cycle().take(n).collect()
}

/// A factor of so many columns with 1x1 pivots and not-a-numbers at and above its diagonal, and a right side.
fn sound(n: usize) -> Solve {
    let mut panel = mild(n * n);
    (0..n * n).filter(|at| at % n <= at / n).for_each(|at| panel[at] = random::payload(2));
    let (d, sub, vector) = (mild(n), mild(n), mild(n));
    Solve { ncol: n, nrow: n, panel, d, sub, blocks: vec![0; n], order: (0..n).rev().collect(), vector }
}

/// A system, and the same with a right side of any numbers, which is refused for that if for nothing else.
fn both(s: Solve, each: Each) {
    let any = Solve { vector: held(s.vector.len()), ..s.clone() };
    each(s);
    each(any);
}

// ---- refusals

/// Refusal 1: every shape, with the lengths that it states where lists of such lengths can be had, else with none.
fn shapes(each: Each) {
    let sizes = [0, 1, 2, 127, 128, 129, 1024, 1025, MAX, WRAPS];
    for (ncol, nrow) in sizes.into_iter().flat_map(|ncol| sizes.map(|nrow| (ncol, nrow))) {
        let n = if ncol <= 129 { ncol } else { 0 };
        let mut s = Solve { ncol, nrow, ..sound(n) };
        s.panel.resize(if nrow <= 1025 { n * nrow } else { 0 }, 1.0);
        both(s, each);
    }
}

/// Refusal 25: each list one too long or too short.
fn lengths(each: Each) {
    let stretched: [fn(&mut Solve, isize); 6] = [
        |s, by| stretch(&mut s.panel, by),
        |s, by| stretch(&mut s.d, by),
        |s, by| stretch(&mut s.sub, by),
        |s, by| stretch(&mut s.blocks, by),
        |s, by| stretch(&mut s.order, by),
        |s, by| stretch(&mut s.vector, by),
    ];
    for n in [0, 1, 2, 3, 127, 128] {
        for by in [-1, 1] {
            for list in stretched {
                let mut s = sound(n);
                list(&mut s, by);
                both(s, each);
            }
        }
    }
}

/// Refusal 26, and every permutation: every order of at most four places over the values in and beyond its range.
fn orders(each: Each) {
    for order in (0..=4).flat_map(|n| lists(&[0, 1, 2, 3, 4, MAX], n)) {
        both(Solve { order: order.clone(), ..sound(order.len()) }, each);
    }
}

/// Refusal 16: every list of at most four bytes.
fn bytes(each: Each) {
    for blocks in (0..=4).flat_map(|n| lists(&[0, 1, 2, 255], n)) {
        both(Solve { blocks: blocks.clone(), ..sound(blocks.len()) }, each);
    }
}

/// The order of refusals 1, 25, 26, 16 and 27, and numbers of the factor that are none: every choice in one call.
fn faults(each: Each) {
    let faults: [fn(&mut Solve); 11] = [
        |s| s.nrow += 1,
        |s| s.sub.push(1.0),
        |s| s.order[3] = 9,
        |s| s.order[2] = s.order[0],
        |s| s.blocks[1] = 2,
        |s| s.blocks[3] = 1,
        |s| s.vector[0] = random::payload(2),
        |s| s.vector[2] = f64::INFINITY,
        |s| s.panel[1] = f64::NAN,
        |s| s.d[1] = f64::NAN,
        |s| s.d[3] = 0.0,
    ];
    for some in 0..1 << faults.len() {
        let mut s = sound(4);
        (0..faults.len()).filter(|i| some >> i & 1 == 1).for_each(|i| faults[i](&mut s));
        each(s);
    }
}

// ---- every small system

/// Two columns, as two 1x1 pivots and as a block, in both orders: every choice of a few numbers for what is read. What
/// is not read holds not-a-numbers.
fn pairs(each: Each) {
    let of = [0.0, -0.0, 1.0, -0.5, 3.0, 1e200, f64::INFINITY, f64::NAN];
    let sides = lists(&[0.0, -0.0, 1.0, -0.5, 5.0, 1e308], 2);
    for three in lists(&of, 3) {
        let unread = random::payload(6);
        let (l, d21) = ([unread, three[0], unread, unread], [three[0], unread]);
        for vector in &sides {
            for order in [vec![0, 1], vec![1, 0]] {
                for (panel, sub, blocks) in [(&l, [unread; 2], vec![0, 0]), (&[unread; 4], d21, vec![1, 0])] {
                    let (panel, sub, d) = (panel.to_vec(), sub.to_vec(), three[1..].to_vec());
                    let (order, vector) = (order.clone(), vector.clone());
                    each(Solve { ncol: 2, nrow: 2, panel, d, sub, blocks, order, vector });
                }
            }
        }
    }
}

/// Three columns, as three 1x1 pivots and with a block at either place: every L and right side over a few numbers.
fn threes(each: Each) {
    let sides = lists(&[-0.0, 1.0, -5.0, 1e308], 3);
    for l in lists(&[0.0, -0.0, 1.0, -3.0, 1e300], 3) {
        for vector in &sides {
            for blocks in [vec![0, 0, 0], vec![1, 0, 0], vec![0, 1, 0]] {
                let panel = vec![9.0, l[0], l[1], 9.0, 9.0, l[2], 9.0, 9.0, 9.0];
                let (d, sub) = (vec![3.0, -0.5, 7.0], vec![2.0, 2.0, 0.0]);
                each(Solve { ncol: 3, nrow: 3, panel, d, sub, blocks, order: vec![2, 0, 1], vector: vector.clone() });
            }
        }
    }
}

/// Every case that needs no seed.
pub fn each_once(each: Each) {
    systems::stations().into_iter().for_each(|station| each(station.case));
    systems::telling().into_iter().for_each(|(_, case)| each(case));
    shapes(each);
    lengths(each);
    orders(each);
    bytes(each);
    faults(each);
    pairs(each);
    threes(each);
}

// ---- seeded

/// Every block pattern of at most six columns, so many times each, on any numbers.
pub fn patterns(rng: &mut Rng, times: usize, each: Each) {
    let parted = |bytes: &Vec<u8>| bytes.last() != Some(&1) && !bytes.windows(2).any(|two| two == [1, 1]);
    for blocks in (0..=6).flat_map(|n| lists(&[0, 1], n)).filter(parted) {
        for _ in 0..times {
            each(Solve { blocks: blocks.clone(), ..random::unrelated(rng, blocks.len()) });
        }
    }
}

/// The bounds of the small systems.
const BOUNDS: Bounds = Bounds { max_col: 12, max_row: 12 };

/// A small system of any numbers.
pub fn small(rng: &mut Rng) -> Solve {
    let n = rng.within(0, BOUNDS.max_col);
    random::unrelated(rng, n)
}

/// A large one.
pub fn large(rng: &mut Rng) -> Solve {
    let n = rng.within(100, 128);
    random::unrelated(rng, n)
}

/// A small root node; some hold not-a-numbers with payloads in upper positions.
pub fn small_node(rng: &mut Rng) -> Factor {
    let mut f = random::root(rng, BOUNDS);
    if rng.once_in(3) {
        random::upper_payloads(rng, f.settings.nrow, &mut f.panel);
    }
    f
}

/// The head of a large node, the `i`-th of its run.
pub fn large_node(rng: &mut Rng, i: usize) -> Factor {
    let Factor { settings, panel, .. } = random::large(rng, i);
    let Settings { ncol, nrow, .. } = settings;
    let panel = (0..ncol * ncol).map(|at| panel[at % ncol + at / ncol * nrow]).collect();
    Factor { settings: Settings { nrow: ncol, ..settings }, panel, lengths: None }
}

/// A right side for the factor that a call left.
pub fn of_a_node(rng: &mut Rng, f: &Factor, left: &call::Left) -> Solve {
    let (s, b) = (&f.settings, &left.buffers);
    Solve {
        ncol: s.ncol,
        nrow: s.nrow,
        panel: b.panel.clone(),
        d: b.d.clone(),
        sub: b.sub.clone(),
        blocks: b.blocks.clone(),
        order: b.order.clone(),
        vector: random::numbers(rng, s.ncol),
    }
}
