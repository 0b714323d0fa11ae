//! Assemblies, updates and inertia lists at the edges, each once: sizes at their bounds and beyond, lists too long and
//! too short, every way in which a few rows can land, every small list of places, rows and block bytes, every two
//! faults together.

use crate::lists::{lists, stretch, MAX, WRAPS};
use oracle::case::*;
use oracle::random::{self, held};

const SHAPES: [(usize, usize); 17] = [
    (0, 0),
    (0, 1),
    (1, 1),
    (2, 1),
    (2, 3),
    (128, 128),
    (128, 127),
    (129, 129),
    (0, 1024),
    (128, 1024),
    (0, 1025),
    (1, 1025),
    (MAX, MAX),
    (0, MAX),
    (MAX, 0),
    (2, MAX),
    (WRAPS, WRAPS),
];

type Each<'a> = &'a mut dyn FnMut(Case);

/// Finite numbers.
fn finite(n: usize) -> Vec<f64> {
    [2.0, -0.5, 3.0, 0.25, -0.0, 1e200].into_iter().cycle().take(n).collect()
}

/// The subsets of some values, in their order.
fn subsets(of: &[u32]) -> Vec<Vec<u32>> {
    let some = |mask: usize| (0..of.len()).filter(|i| mask >> i & 1 == 1).map(|i| of[i]).collect();
    (0..1 << of.len()).map(some).collect()
}

// ---- assembly

/// Entries at a panel's corners. A shape that is not held has neither entries nor panel.
fn corners(ncol: usize, nrow: usize) -> Assembly {
    let is_held = ncol <= 128 && nrow <= 1025 && ncol <= nrow;
    let (rows, cols) = if is_held && ncol > 0 {
        (vec![0, nrow - 1, nrow - 1, 0], vec![0, 0, ncol - 1, 0])
    } else {
        (Vec::new(), Vec::new())
    };
    let panel = held(if is_held { ncol * nrow } else { 0 });
    Assembly { ncol, nrow, panel, numbers: finite(rows.len()), rows, cols }
}

/// Refusal 10: every shape, and each list one too long or too short.
pub fn assembly_lengths(each: Each) {
    let stretched: [fn(&mut Assembly, isize); 4] = [
        |a, by| stretch(&mut a.panel, by),
        |a, by| stretch(&mut a.rows, by),
        |a, by| stretch(&mut a.cols, by),
        |a, by| stretch(&mut a.numbers, by),
    ];
    for (ncol, nrow) in SHAPES {
        each(Case::Assembly(corners(ncol, nrow)));
        for by in [-1, 1] {
            for list in stretched {
                let mut a = corners(ncol, nrow);
                list(&mut a, by);
                each(Case::Assembly(a));
            }
        }
    }
}

/// Refusals 11 and 12 and which entry they name: every list of at most two entries in and around a panel, twice the
/// same place among them.
pub fn entries(each: Each) {
    for (ncol, nrow) in [(0, 2), (1, 1), (2, 3)] {
        let rows = (0..=nrow).chain([MAX]);
        let places: Vec<(usize, usize)> = rows.flat_map(|i| (0..=ncol).chain([MAX]).map(move |j| (i, j))).collect();
        let numbers = [1.5, -0.0, f64::INFINITY, f64::NAN];
        let one: Vec<_> = places.iter().flat_map(|&(i, j)| numbers.map(|x| (i, j, x))).collect();
        for list in (0..=2).flat_map(|n| lists(&one, n)) {
            each(Case::Assembly(Assembly {
                ncol,
                nrow,
                panel: held(ncol * nrow),
                rows: list.iter().map(|e| e.0).collect(),
                cols: list.iter().map(|e| e.1).collect(),
                numbers: list.iter().map(|e| e.2).collect(),
            }));
        }
    }
}

// ---- update

/// A target of so many columns and these rows, and a descendant of so many columns and those rows.
fn update(ncol: usize, rows: &[u32], nk: usize, below: &[u32]) -> Update {
    let (nrow, mk) = (rows.len(), below.len());
    let place = Place { first: rows.first().map_or(3, |&g| g), rows: rows.to_vec() };
    let descendant = Descendant {
        ncol: nk,
        below: mk,
        rows: below.to_vec(),
        panel: finite((nk + mk) * nk),
        d: finite(nk),
        sub: finite(nk),
        blocks: vec![0; nk],
    };
    Update { ncol, nrow, place, panel: held(ncol * nrow), descendant }
}

fn counting(from: u32, n: usize) -> Vec<u32> {
    (from..).take(n).collect()
}

/// Refusal 13: every shape of target and of descendant with the lengths that it states, where lists of such lengths
/// can be had, else with empty lists.
pub fn update_sizes(each: Each) {
    let below = [(0, 0), (0, 3), (1, 0), (2, 3), (128, 0), (128, 896), (128, 897), (129, 0), (0, 1024), (0, 1025)];
    let beyond = [(MAX, 0), (MAX, 1), (0, MAX), (1, MAX), (MAX, MAX), (WRAPS, WRAPS), (WRAPS, MAX - WRAPS + 1)];
    for (ncol, nrow) in SHAPES {
        for (nk, mk) in below.into_iter().chain(beyond) {
            let up_to = |n: usize, most: usize| if n <= most { n } else { 0 };
            let (rows, from) = (counting(7, up_to(nrow, 1025)), counting(7, up_to(mk, 1025)));
            let mut u = update(up_to(ncol, 129), &rows, up_to(nk, 129), &from);
            (u.ncol, u.nrow, u.descendant.ncol, u.descendant.below) = (ncol, nrow, nk, mk);
            each(Case::Update(u));
        }
    }
}

/// Refusal 13: each list one too long or too short.
pub fn update_lengths(each: Each) {
    let stretched: [fn(&mut Update, isize); 7] = [
        |u, by| stretch(&mut u.place.rows, by),
        |u, by| stretch(&mut u.panel, by),
        |u, by| stretch(&mut u.descendant.rows, by),
        |u, by| stretch(&mut u.descendant.panel, by),
        |u, by| stretch(&mut u.descendant.d, by),
        |u, by| stretch(&mut u.descendant.sub, by),
        |u, by| stretch(&mut u.descendant.blocks, by),
    ];
    for (ncol, nrow) in [(0, 0), (0, 2), (1, 1), (2, 3)] {
        for (nk, mk) in [(0, 0), (0, 2), (1, 0), (2, 2)] {
            for by in [-1, 1] {
                for list in stretched {
                    let mut u = update(ncol, &counting(7, nrow), nk, &counting(7, mk));
                    list(&mut u, by);
                    each(Case::Update(u));
                }
            }
        }
    }
}

/// Refusals 14 and 15: every two lists of at most three rows over four numbers, rising or not, from every first row.
pub fn rows(each: Each) {
    let of = [0, 1, 2, u32::MAX];
    let all: Vec<Vec<u32>> = (0..=3).flat_map(|n| lists(&of, n)).collect();
    for rows in &all {
        for ncol in 0..=rows.len().min(2) {
            for first in of {
                for below in &all {
                    let mut u = update(ncol, rows, 1, below);
                    u.place.first = first;
                    each(Case::Update(u));
                }
            }
        }
    }
}

/// Refusal 17 and every way to land: targets of at most two columns over six rows, descendants of any of the rows, of
/// no column, one, two, and a block.
pub fn landings(each: Each) {
    let all = counting(0, 6);
    for ncol in 0..=2 {
        let firsts = if ncol == 0 { 0..1 } else { 0..7 - ncol };
        for first in firsts {
            for tail in subsets(&all[first + ncol..]) {
                let rows = [&all[first..first + ncol], &tail[..]].concat();
                for below in subsets(&all) {
                    for blocks in [&[][..], &[0], &[0, 0], &[1, 0]] {
                        let mut u = update(ncol, &rows, blocks.len(), &below);
                        u.descendant.blocks = blocks.to_vec();
                        each(Case::Update(u));
                    }
                }
            }
        }
    }
}

/// Refusal 16 in an update: every list of at most four bytes.
pub fn blocks(each: Each) {
    for blocks in (0..=4).flat_map(|n| lists(&[0, 1, 2, 255], n)) {
        let mut u = update(1, &[4, 6], blocks.len(), &[4, 6]);
        u.descendant.blocks = blocks;
        each(Case::Update(u));
    }
}

/// Refusal 18: every number of a descendant, and every two, not finite; with a block at each place and with none.
pub fn numbers(each: Each) {
    let wrong = [f64::NEG_INFINITY, random::payload(2), f64::INFINITY];
    for blocks in [[0, 0, 0], [1, 0, 0], [0, 1, 0]] {
        let cells = 5 * 3 + 3 + 3;
        for (x, y) in (0..cells).flat_map(|x| (0..=x).map(move |y| (x, y))) {
            let mut u = update(1, &[4, 6], 3, &[4, 6]);
            let k = &mut u.descendant;
            k.blocks = blocks.to_vec();
            let all = k.panel.iter_mut().chain(&mut k.d).chain(&mut k.sub);
            for (at, number) in all.enumerate().filter(|(at, _)| *at == x || *at == y) {
                *number = wrong[at % 3];
            }
            each(Case::Update(u));
        }
    }
}

/// The sum of a block and of a 1x1 over a few numbers, each way: from +0.0, in column order, zeros of both signs,
/// what overflows and what cancels.
pub fn sums(each: Each) {
    for x in lists(&[-0.0, 1.0, -0.5, 1e200], 7) {
        for blocks in [[0, 0], [1, 0]] {
            let mut u = update(1, &[4, 6], 2, &[4, 6]);
            u.panel = vec![-0.0, 1.0];
            let k = &mut u.descendant;
            k.panel = vec![0.0, 0.0, x[0], x[1], 0.0, 0.0, x[2], x[3]];
            (k.d, k.sub, k.blocks) = (vec![x[4], x[5]], vec![x[6], 0.0], blocks.to_vec());
            each(Case::Update(u));
        }
    }
}

/// The order of refusals 13 to 18: every choice of faults in one call.
pub fn faults(each: Each) {
    let faults: [fn(&mut Update); 9] = [
        |u| u.descendant.d.push(1.0),
        |u| u.place.rows.swap(2, 3),
        |u| u.place.first += 1,
        |u| u.descendant.rows.swap(2, 3),
        |u| u.descendant.blocks[2] = 1,
        // the last row is absent from the target
        |u| *u.descendant.rows.iter_mut().max().unwrap() += 1,
        |u| u.descendant.d[2] = f64::NAN,
        |u| u.descendant.sub[1] = f64::INFINITY,
        |u| *u.descendant.panel.last_mut().unwrap() = f64::NAN,
    ];
    for some in 0..1 << faults.len() {
        let mut u = update(2, &[4, 5, 7, 9], 3, &[1, 5, 7, 9]);
        u.descendant.blocks = vec![0, 1, 0];
        (0..faults.len()).filter(|i| some >> i & 1 == 1).for_each(|i| faults[i](&mut u));
        each(Case::Update(u));
    }
}

// ---- inertia

/// Refusal 19: every three lengths at the bounds.
pub fn inertia_lengths(each: Each) {
    for n in lists(&[0, 1, 2, 127, 128, 129, 1024], 3) {
        let byte = |i: usize| u8::from(i % 2 == 0 && i + 1 < n[2]);
        each(Case::Inertia(Inertia { d: finite(n[0]), sub: finite(n[1]), blocks: (0..n[2]).map(byte).collect() }));
    }
}

/// Refusal 16 and the counts: every list of at most three pivots over a few numbers.
pub fn inertias(each: Each) {
    let numbers = [0.0, -0.0, 1.0, -2.0, random::payload(2), f64::INFINITY];
    for n in 0..=3 {
        let subs = lists(&[-0.0, 1.0, 1e200], n);
        let bytes = lists(&[0, 1, 2], n);
        for d in lists(&numbers, n) {
            for sub in &subs {
                for blocks in &bytes {
                    each(Case::Inertia(Inertia { d: d.clone(), sub: sub.clone(), blocks: blocks.clone() }));
                }
            }
        }
    }
    for blocks in (4..=5).flat_map(|n| lists(&[0, 1, 2, 255], n)) {
        each(Case::Inertia(Inertia { d: finite(blocks.len()), sub: finite(blocks.len()), blocks }));
    }
}

/// Every case of this file.
pub fn all(each: Each) {
    assembly_lengths(each);
    entries(each);
    update_sizes(each);
    update_lengths(each);
    rows(each);
    landings(each);
    blocks(each);
    numbers(each);
    sums(each);
    faults(each);
    inertia_lengths(each);
    inertias(each);
}
