//! Readings of docs/SCOPE.md, "Solve", that look right and are wrong, each in one
//! thing; and how many cases tell each of them from the right one.

use crate::case::{Refusal, Solve};
use crate::rules::{bad_shape, refuse_at, refuse_if, Checked};
use crate::solve::*;

type Named = (&'static str, Reading);

/// Every wrong reading.
pub fn wrong() -> Vec<Named> {
    [checks(), places(), orders(), forwards(), backs(), singles(), blocks_of_two(), determinants()].concat()
}

// ---- refusals

fn checked(name: &'static str, checked: fn(&Solve) -> Checked) -> Named {
    (name, Reading { checked, ..AS_WRITTEN })
}

/// The tests of the lists after those of shape and lengths.
fn first_of(s: &Solve, tests: [fn(&Solve) -> Checked; 3]) -> Checked {
    shape(s)?;
    lengths(s)?;
    tests.iter().try_for_each(|test| test(s))
}

/// A number of the factor that must not be refused, refused after all else.
fn refused_too(s: &Solve, place: Option<usize>) -> Checked {
    (AS_WRITTEN.checked)(s)?;
    refuse_at(place, 18)
}

/// Which tests there are, and in which order.
fn checks() -> Vec<Named> {
    vec![
        checked("a node with tail rows taken", |s| {
            refuse_if(bad_shape(s.ncol, s.nrow), 1)?;
            lengths(s)?;
            order(s)?;
            blocks(s)?;
            right_side(s)
        }),
        checked("25 before 1", |s| {
            lengths(s)?;
            (AS_WRITTEN.checked)(s)
        }),
        checked("16 before 26", |s| first_of(s, [blocks, order, right_side])),
        checked("27 before 16", |s| first_of(s, [order, right_side, blocks])),
        checked("27 before 26", |s| first_of(s, [right_side, order, blocks])),
        checked("an L that is not finite refused", |s| {
            let unsound = |&j: &usize| (j + 1..s.ncol).any(|i| !at(s, i, j).is_finite());
            refused_too(s, (0..s.ncol).find(unsound))
        }),
        checked("a d that is not finite refused", |s| refused_too(s, s.d.iter().position(|d| !d.is_finite()))),
        checked("a subdiagonal that is not finite refused", |s| {
            refused_too(s, s.sub.iter().position(|d21| !d21.is_finite()))
        }),
        checked("a d of zero refused", |s| refused_too(s, s.d.iter().position(|&d| d == 0.0))),
    ]
}

/// The least position of the order that is so.
fn least(s: &Solve, so: fn(&Solve, usize) -> bool) -> Option<usize> {
    (0..s.order.len()).find(|&k| so(s, k))
}

fn comes_again(s: &Solve, k: usize) -> bool {
    s.order[k + 1..].contains(&s.order[k])
}

/// Which place a test names.
fn places() -> Vec<Named> {
    vec![
        checked("26: places out of range before repeated ones", |s| {
            let order = |s: &Solve| refuse_at(least(s, out_of_range).or_else(|| least(s, repeats)), 26);
            first_of(s, [order, blocks, right_side])
        }),
        checked("26: repeated places before those out of range", |s| {
            let order = |s: &Solve| refuse_at(least(s, repeats).or_else(|| least(s, out_of_range)), 26);
            first_of(s, [order, blocks, right_side])
        }),
        checked("26: the earlier of two equal places", |s| {
            let order = |s: &Solve| refuse_at(least(s, |s, k| out_of_range(s, k) || comes_again(s, k)), 26);
            first_of(s, [order, blocks, right_side])
        }),
        checked("27: not-a-numbers alone", |s| {
            let nan = |s: &Solve| refuse_at(s.vector.iter().position(|x| x.is_nan()), 27);
            first_of(s, [order, blocks, nan])
        }),
        checked("27: the first in the recorded order", |s| {
            let first = |s: &Solve| refuse_at(s.order.iter().copied().find(|&i| !s.vector[i].is_finite()), 27);
            first_of(s, [order, blocks, first])
        }),
        checked("27: its position in the recorded order", |s| {
            let position = |s: &Solve| refuse_at(s.order.iter().position(|&i| !s.vector[i].is_finite()), 27);
            first_of(s, [order, blocks, position])
        }),
    ]
}

// ---- the order

fn orders() -> Vec<Named> {
    let round = Reading {
        taken: |s| (AS_WRITTEN.undone)(s, &s.vector),
        undone: |s, x| s.order.iter().map(|&i| x[i]).collect(),
        ..AS_WRITTEN
    };
    let exchanges = Reading {
        taken: |s| {
            let mut y = s.vector.clone();
            (0..s.ncol).for_each(|k| y.swap(k, s.order[k]));
            y
        },
        undone: |s, x| {
            let mut x = x.to_vec();
            (0..s.ncol).rev().for_each(|k| x.swap(k, s.order[k]));
            x
        },
        ..AS_WRITTEN
    };
    vec![
        ("the order not taken", Reading { taken: |s| s.vector.clone(), ..AS_WRITTEN }),
        ("the order not undone", Reading { undone: |_, x| x.to_vec(), ..AS_WRITTEN }),
        ("the order the wrong way round", round),
        ("the order as a list of exchanges", exchanges),
    ]
}

// ---- forward and back

type Moved = fn(&Solve, usize, &[f64]) -> f64;

fn forward(name: &'static str, forward: Moved) -> Named {
    (name, Reading { forward, ..AS_WRITTEN })
}

fn back(name: &'static str, back: Moved) -> Named {
    (name, Reading { back, ..AS_WRITTEN })
}

fn reversed(mut terms: Vec<Term>) -> Vec<Term> {
    terms.reverse();
    terms
}

fn where_not_zero(mut terms: Vec<Term>, of: fn(&Term) -> f64) -> Vec<Term> {
    terms.retain(|term| of(term) != 0.0);
    terms
}

fn fused(x: f64, terms: &[Term]) -> f64 {
    terms.iter().fold(x, |x, (l, y)| (-l).mul_add(*y, x))
}

fn gathered(x: f64, terms: &[Term]) -> f64 {
    x - terms.iter().fold(0.0, |sum, (l, y)| sum + l * y)
}

fn forwards() -> Vec<Named> {
    vec![
        forward("forward: by falling position", |s, k, y| less(y[k], &reversed(earlier(s, k, y)))),
        forward("forward: d21 read as L", |s, k, y| {
            less(y[k], &(0..k).map(|j| (at(s, k, j), y[j])).collect::<Vec<_>>())
        }),
        forward("forward: the upper position read", |s, k, y| {
            less(y[k], &(0..k).filter(|&j| has_entry(s, k, j)).map(|j| (at(s, j, k), y[j])).collect::<Vec<_>>())
        }),
        forward("forward: the diagonal read as L's own", |s, k, y| (AS_WRITTEN.forward)(s, k, y) / at(s, k, k)),
        forward("forward: zeros of L left out", |s, k, y| less(y[k], &where_not_zero(earlier(s, k, y), |t| t.0))),
        forward("forward: zeros of y left out", |s, k, y| less(y[k], &where_not_zero(earlier(s, k, y), |t| t.1))),
        forward("forward: fused", |s, k, y| fused(y[k], &earlier(s, k, y))),
        forward("forward: the terms added up first", |s, k, y| gathered(y[k], &earlier(s, k, y))),
    ]
}

fn backs() -> Vec<Named> {
    vec![
        back("back: by rising position", |s, k, x| less(x[k], &reversed(later(s, k, x)))),
        back("back: d21 read as L", |s, k, x| {
            less(x[k], &(k + 1..s.ncol).rev().map(|j| (at(s, j, k), x[j])).collect::<Vec<_>>())
        }),
        back("back: the upper position read", |s, k, x| {
            let after = (k + 1..s.ncol).rev().filter(|&j| has_entry(s, j, k));
            less(x[k], &after.map(|j| (at(s, k, j), x[j])).collect::<Vec<_>>())
        }),
        back("back: the diagonal read as L's own", |s, k, x| (AS_WRITTEN.back)(s, k, x) / at(s, k, k)),
        back("back: zeros of L left out", |s, k, x| less(x[k], &where_not_zero(later(s, k, x), |t| t.0))),
        back("back: zeros of x left out", |s, k, x| less(x[k], &where_not_zero(later(s, k, x), |t| t.1))),
        back("back: fused", |s, k, x| fused(x[k], &later(s, k, x))),
        back("back: the terms added up first", |s, k, x| gathered(x[k], &later(s, k, x))),
    ]
}

// ---- the pivots

fn singles() -> Vec<Named> {
    let single = |name, single: Moved| (name, Reading { single, ..AS_WRITTEN });
    vec![
        single("a 1x1: y/d", |s, k, y| y[k] / s.d[k]),
        single("a 1x1: the d of another place, by the order", |s, k, y| y[k] * (1.0 / s.d[s.order[k]])),
        single("a 1x1: d from the panel", |s, k, y| y[k] * (1.0 / at(s, k, k))),
    ]
}

type Pair = fn(&Solve, usize, &[f64]) -> [f64; 2];

fn block(name: &'static str, block: Pair) -> Named {
    (name, Reading { block, ..AS_WRITTEN })
}

/// The block's three numbers in the panel.
fn in_panel(s: &Solve, k: usize) -> Pivot {
    [at(s, k, k), at(s, k + 1, k), at(s, k + 1, k + 1)]
}

fn blocks_of_two() -> Vec<Named> {
    vec![
        block("a block: d11 and d22 exchanged", |s, k, y| {
            let [d11, d21, d22] = pivot(s, k);
            divided([d22, d21, d11], determinant([d22, d21, d11]), y[k], y[k + 1])
        }),
        block("a block: divided by det", |s, k, y| {
            let ([d11, d21, d22], det) = (pivot(s, k), determinant(pivot(s, k)));
            [(d22 * y[k] - d21 * y[k + 1]) / det, (d11 * y[k + 1] - d21 * y[k]) / det]
        }),
        block("a block: inverted first", |s, k, y| {
            let [d11, d21, d22] = pivot(s, k).map(|x| x * (1.0 / determinant(pivot(s, k))));
            [d22 * y[k] - d21 * y[k + 1], d11 * y[k + 1] - d21 * y[k]]
        }),
        block("a block: scaled by d21, as in LAPACK", |s, k, y| {
            let [d11, d21, d22] = pivot(s, k);
            let (p, q, a, b) = (d11 / d21, d22 / d21, y[k] / d21, y[k + 1] / d21);
            let scale = p * q - 1.0;
            [(q * a - b) / scale, (p * b - a) / scale]
        }),
        block("a block: its second from the new first", |s, k, y| {
            let of = |a: f64| divided(pivot(s, k), determinant(pivot(s, k)), a, y[k + 1]);
            let first = of(y[k])[0];
            [first, of(first)[1]]
        }),
        block("a block: d21 at its second position", |s, k, y| {
            let pivot = [s.d[k], s.sub[k + 1], s.d[k + 1]];
            divided(pivot, determinant(pivot), y[k], y[k + 1])
        }),
        block("a block: from the panel", |s, k, y| {
            divided(in_panel(s, k), determinant(in_panel(s, k)), y[k], y[k + 1])
        }),
        block("a block: the first product fused", |s, k, y| {
            let ([d11, d21, d22], det) = (pivot(s, k), determinant(pivot(s, k)));
            let (a, b) = (y[k], y[k + 1]);
            [d22.mul_add(a, -(d21 * b)) * (1.0 / det), d11.mul_add(b, -(d21 * a)) * (1.0 / det)]
        }),
        block("a block: the second product fused", |s, k, y| {
            let ([d11, d21, d22], det) = (pivot(s, k), determinant(pivot(s, k)));
            let (a, b) = (y[k], y[k + 1]);
            [(-d21).mul_add(b, d22 * a) * (1.0 / det), (-d21).mul_add(a, d11 * b) * (1.0 / det)]
        }),
    ]
}

fn determinants() -> Vec<Named> {
    vec![
        block("det: from the panel", |s, k, y| divided(pivot(s, k), determinant(in_panel(s, k)), y[k], y[k + 1])),
        block("det: d11·d22 fused", |s, k, y| {
            let [d11, d21, d22] = pivot(s, k);
            divided([d11, d21, d22], d11.mul_add(d22, -(d21 * d21)), y[k], y[k + 1])
        }),
        block("det: d21·d21 fused", |s, k, y| {
            let [d11, d21, d22] = pivot(s, k);
            divided([d11, d21, d22], (-d21).mul_add(d21, d11 * d22), y[k], y[k + 1])
        }),
    ]
}

// ---- who tells them

/// By wrong reading, how many of these cases it answers otherwise.
pub fn told(cases: &[Solve]) -> Vec<(&'static str, usize)> {
    let otherwise = |reading: &Reading, s: &Solve| pattern(reading.answer(s)) != pattern(AS_WRITTEN.answer(s));
    let told = |(name, reading)| (name, cases.iter().filter(|s| otherwise(&reading, s)).count());
    wrong().into_iter().map(told).collect()
}

/// An answer by its bits, every not-a-number alike.
fn pattern(answer: Result<Vec<f64>, Refusal>) -> Result<Vec<u64>, Refusal> {
    answer.map(|vector| vector.iter().map(|x| if x.is_nan() { u64::MAX } else { x.to_bits() }).collect())
}
