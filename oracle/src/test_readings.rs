//! Readings of docs/SCOPE.md, "The pivot tests", that look right and are wrong, each in one thing: the pivot is the
//! right one, the test number beside it is not. And how many cases tell each of them from the right one.

use crate::case::*;
use crate::elimination::{At, Taken};
use crate::rules;
use crate::test_numbers::*;

type Named = (&'static str, Reading);

/// Every wrong reading that a factor call can show.
fn wrong() -> Vec<Named> {
    [owns(), columns(), rows(), candidates(), inputs(), decisions(), names(), lifts(), exchanges(), places()].concat()
}

/// One that no call shows: a run with a not-a-number in the head ends in a refusal and leaves zeros.
fn hidden() -> Vec<Named> {
    let nan = |looked: Looked| if looked.own.is_nan() { 4 } else { decided(looked) };
    vec![("a not-a-number over zeros is no zero column", Reading { decided: nan, ..AS_WRITTEN })]
}

// ---- what is compared

fn own(name: &'static str, own: fn(&At) -> f64) -> Named {
    (name, Reading { own, ..AS_WRITTEN })
}

fn owns() -> Vec<Named> {
    vec![
        own("own: by its square", |at| greatest(at.k, squares(at, at.k, at.k..at.k + 1)).0),
        own("own: with its sign", |at| at.node.at(at.k, at.k)),
        own("own: no less than the floor", |at| (AS_WRITTEN.own)(at).max(at.floor.unwrap_or(0.0))),
    ]
}

fn colmax(name: &'static str, colmax: fn(&At) -> (f64, usize)) -> Named {
    (name, Reading { colmax, ..AS_WRITTEN })
}

/// The greatest magnitude of a row or column in some places.
fn greatest_magnitude(at: &At, r: usize, mut places: impl Iterator<Item = usize>) -> (f64, usize) {
    let of = |i: usize| (at.node.at(i, r).abs(), i);
    places.try_fold((0.0, at.k), |best, i| Some(if of(i).0 > best.0 { of(i) } else { best })).unwrap()
}

/// The last of equal squares.
fn last_greatest(at: &At) -> (f64, usize) {
    let squares = squares(at, at.k, at.k + 1..at.ke);
    let (i, square) = squares.fold((at.k, 0.0), |best, next| if next.1 >= best.1 { next } else { best });
    (square.sqrt(), i)
}

fn columns() -> Vec<Named> {
    vec![
        colmax("colmax: by magnitudes", |at| greatest_magnitude(at, at.k, at.k + 1..at.ke)),
        colmax("colmax: in the rows below the panel too", |at| {
            greatest(at.k, squares(at, at.k, at.k + 1..at.node.ncol))
        }),
        colmax("colmax: in the tail rows too", |at| {
            let tail = at.node.ncol..at.node.nrow;
            (greatest(at.k, squares(at, at.k, (at.k + 1..at.ke).chain(tail))).0, (AS_WRITTEN.colmax)(at).1)
        }),
        colmax("colmax: the last of equal squares", last_greatest),
    ]
}

fn rowmax(name: &'static str, rowmax: fn(&At, usize) -> f64) -> Named {
    (name, Reading { rowmax, ..AS_WRITTEN })
}

fn rows() -> Vec<Named> {
    vec![
        rowmax("rowmax: by magnitudes", |at, imax| greatest_magnitude(at, imax, (at.k..imax).chain(imax + 1..at.ke)).0),
        rowmax("rowmax: with its own diagonal", |at, imax| greatest(at.k, squares(at, imax, at.k..at.ke)).0),
        rowmax("rowmax: from column k + 1 on", |at, imax| {
            greatest(at.k, squares(at, imax, (at.k + 1..imax).chain(imax + 1..at.ke))).0
        }),
        rowmax("rowmax: from the panel's first column on", |at, imax| {
            greatest(at.k, squares(at, imax, (at.kb..imax).chain(imax + 1..at.ke))).0
        }),
        rowmax("rowmax: from the node's first column on", |at, imax| {
            greatest(at.k, squares(at, imax, (0..imax).chain(imax + 1..at.ke))).0
        }),
        rowmax("rowmax: in the rows below the panel too", |at, imax| {
            greatest(at.k, squares(at, imax, (at.k..imax).chain(imax + 1..at.node.ncol))).0
        }),
        rowmax("rowmax: in the tail rows too", |at, imax| {
            let tail = at.node.ncol..at.node.nrow;
            greatest(at.k, squares(at, imax, (at.k..imax).chain(imax + 1..at.ke).chain(tail))).0
        }),
        rowmax("rowmax: of row imax alone", |at, imax| greatest(at.k, squares(at, imax, at.k..imax)).0),
        rowmax("rowmax: of column imax alone", |at, imax| greatest(at.k, squares(at, imax, imax + 1..at.ke)).0),
    ]
}

fn candidates() -> Vec<Named> {
    let candidate = |name, candidate| (name, Reading { candidate, ..AS_WRITTEN });
    vec![
        candidate("the candidate's diagonal with its sign", |at, imax| at.node.at(imax, imax)),
        candidate("the candidate's diagonal at k + 1", |at, _| {
            let next = (at.k + 1).min(at.ke - 1);
            at.node.at(next, next).abs()
        }),
    ]
}

/// With the input's rows in the order of the steps before, but nothing eliminated.
fn as_given<R>(at: &At, f: impl Fn(&At) -> R) -> R {
    f(&At { node: &at.input.ordered(&at.node.order), ..*at })
}

fn inputs() -> Vec<Named> {
    let given = Reading {
        own: |at| as_given(at, AS_WRITTEN.own),
        colmax: |at| as_given(at, AS_WRITTEN.colmax),
        rowmax: |at, imax| as_given(at, |at| (AS_WRITTEN.rowmax)(at, imax)),
        candidate: |at, imax| as_given(at, |at| (AS_WRITTEN.candidate)(at, imax)),
        ..AS_WRITTEN
    };
    vec![("the input's numbers and not those that stand there", given)]
}

// ---- what decides

fn by(name: &'static str, decided: fn(Looked) -> u8) -> Named {
    (name, Reading { decided, ..AS_WRITTEN })
}

/// The tests in their order, the first that holds.
fn first(holds: [bool; 4]) -> u8 {
    holds.iter().position(|&holds| holds).unwrap_or(4) as u8
}

/// The four tests as they are, one of them put otherwise by the caller.
fn tests(Looked { own, colmax, rowmax, candidate }: Looked) -> [bool; 4] {
    let bar = alpha() * colmax;
    [own.max(colmax) == 0.0, own >= bar, own >= bar * (colmax / rowmax), candidate >= alpha() * rowmax]
}

fn with(looked: Looked, which: usize, holds: bool) -> u8 {
    let mut tests = tests(looked);
    tests[which] = holds;
    first(tests)
}

fn decisions() -> Vec<Named> {
    vec![
        by("a zero column by its diagonal alone", |l| with(l, 0, l.own == 0.0)),
        by("a zero column by its entries alone", |l| with(l, 0, l.colmax == 0.0)),
        by("the second test before the first", |l| with(l, 0, tests(l)[0] && !tests(l)[1])),
        by("own diagonal: strictly greater", |l| with(l, 1, l.own > alpha() * l.colmax)),
        by("own diagonal: alpha cut to 0.64", |l| with(l, 1, l.own >= 0.64 * l.colmax)),
        by("own diagonal: without alpha", |l| with(l, 1, l.own >= l.colmax)),
        by("row test: strictly greater", |l| with(l, 2, l.own > (alpha() * l.colmax) * (l.colmax / l.rowmax))),
        by("row test: divided last", |l| with(l, 2, l.own >= alpha() * l.colmax * l.colmax / l.rowmax)),
        by("row test: not divided", |l| with(l, 2, l.own * l.rowmax >= alpha() * l.colmax * l.colmax)),
        by("row test: left out", |l| with(l, 2, false)),
        by("row test: after the candidate's", |l| match decided(l) {
            2 if tests(l)[3] => 3,
            number => number,
        }),
        by("exchanged diagonal: strictly greater", |l| with(l, 3, l.candidate > alpha() * l.rowmax)),
        by("exchanged diagonal: beside colmax", |l| with(l, 3, l.candidate >= alpha() * l.colmax)),
        by("exchanged diagonal: left out", |l| with(l, 3, false)),
    ]
}

// ---- what it is called, once the pivot is taken

fn kept(name: &'static str, kept: fn(&Taken, Looked, u8) -> u8) -> Named {
    (name, Reading { kept, ..AS_WRITTEN })
}

fn names() -> Vec<Named> {
    vec![
        kept("numbers from 1", |_, _, number| number + 1),
        kept("2 as 1: the two 1x1s at k not told apart", |_, _, number| [0, 1, 1, 3, 4][number as usize]),
        kept("1 and 2 the other way round", |_, _, number| [0, 2, 1, 3, 4][number as usize]),
        kept("3 and 4 the other way round", |_, _, number| [0, 1, 2, 4, 3][number as usize]),
        kept("3 as 1, and a block 3", |_, _, number| [0, 1, 2, 1, 3][number as usize]),
        kept("0 wherever d was zero", |taken, _, number| if is_single(taken) && d(taken) == 0.0 { 0 } else { number }),
        kept("a zero column only where the entries are zeros, too", |taken, _, number| {
            let At { node, k, ke, .. } = *taken.at;
            number.max(u8::from((k + 1..ke).any(|i| node.at(i, k) != 0.0)))
        }),
    ]
}

fn is_single(taken: &Taken) -> bool {
    !taken.choice.is_block()
}

/// A 1x1's d before a lift.
fn d(taken: &Taken) -> f64 {
    taken.pivot[0]
}

/// The tests again with another diagonal at k.
fn again(looked: Looked, own: f64) -> u8 {
    decided(Looked { own: own.abs(), ..looked })
}

fn lifts() -> Vec<Named> {
    vec![
        kept("0 wherever a 1x1 was lifted", |taken, _, number| match taken.lifted {
            Some(_) if is_single(taken) => 0,
            _ => number,
        }),
        kept("0 wherever a block was lifted", |taken, _, number| match taken.lifted {
            Some(_) if !is_single(taken) => 0,
            _ => number,
        }),
        kept("a lifted 1x1 tested again", |taken, looked, number| match taken.lifted {
            Some(lifted) if number < 3 => again(looked, lifted[0]),
            _ => number,
        }),
        kept("a lifted block tested again", |taken, looked, number| match taken.lifted {
            Some(lifted) if !is_single(taken) => again(looked, lifted[0]),
            _ => number,
        }),
    ]
}

fn exchanges() -> Vec<Named> {
    vec![
        kept("3 wherever rows were exchanged", |taken, _, number| match taken.choice.exchange(taken.at.k) {
            Some(_) => 3,
            None => number,
        }),
        kept("4 for an exchange with the next row", |taken, _, number| match number {
            3 if taken.choice.imax == taken.at.k + 1 => 4,
            _ => number,
        }),
        kept("3 wherever another row of the input stands", |taken, _, number| {
            let k = taken.at.k;
            if is_single(taken) && taken.exchanged.order[k] != k {
                3
            } else {
                number
            }
        }),
        kept("tested again after the exchange", |taken, _, number| match number {
            3 => decided(AS_WRITTEN.looked(&At { node: taken.exchanged, ..*taken.at }).0),
            _ => number,
        }),
    ]
}

// ---- where it is noted

fn noted(name: &'static str, noted: fn(&mut [u8], &Taken, u8)) -> Named {
    (name, Reading { noted, ..AS_WRITTEN })
}

/// The positions of a pivot.
fn positions(taken: &Taken) -> std::ops::RangeInclusive<usize> {
    let k = taken.at.k;
    k..=if is_single(taken) { k } else { k + 1 }
}

fn places() -> Vec<Named> {
    vec![
        noted("a block's at its first position alone", |tests, taken, number| tests[taken.at.k] = number),
        noted("a block's at its second position alone", |tests, taken, number| tests[*positions(taken).end()] = number),
        noted("a block's second position by its own column", |tests, taken, number| {
            (AS_WRITTEN.noted)(tests, taken, number);
            if !is_single(taken) {
                let at = At { k: taken.at.k + 1, ..*taken.at };
                tests[at.k] = decided(AS_WRITTEN.looked(&at).0);
            }
        }),
        noted("at the input's row", |tests, taken, number| {
            positions(taken).for_each(|k| tests[taken.exchanged.order[k]] = number)
        }),
        noted("moved by the exchange", |tests, taken, number| {
            (AS_WRITTEN.noted)(tests, taken, number);
            if let Some((moved, partner)) = taken.choice.exchange(taken.at.k) {
                tests.swap(moved, partner);
            }
        }),
        noted("at the panel's own position", |tests, taken, number| {
            positions(taken).for_each(|k| tests[k - taken.at.kb] = number)
        }),
        noted("by pivots and not by positions", |tests, taken, number| tests[taken.at.step] = number),
    ]
}

// ---- who tells them

/// By wrong reading, how many of these calls it answers otherwise; by hidden one, in how many that end in refusal 9 it
/// has another number before that.
pub fn told(calls: &[Factor]) -> Vec<(String, usize)> {
    let right: Vec<_> = calls.iter().map(|f| (f, AS_WRITTEN.answer(f))).collect();
    let count = |reading: &Reading| right.iter().filter(|(f, answer)| reading.answer(f) != *answer).count();
    let told = wrong().into_iter().map(|(name, reading)| (format!("test numbers: {name}"), count(&reading)));
    let ends: Vec<_> = calls.iter().filter(|f| refused_with(f, 9)).collect();
    let hidden = hidden().into_iter().map(|(name, reading)| {
        assert_eq!(count(&reading), 0, "a call shows it: {name}");
        let otherwise = ends.iter().filter(|f| reading.noted(f) != AS_WRITTEN.noted(f)).count();
        (format!("test numbers, hidden: {name}"), otherwise)
    });
    told.chain(hidden).collect()
}

fn refused_with(f: &Factor, number: usize) -> bool {
    matches!(rules::answer(&Case::Factor(f.clone())), Answer::Refused(r) if r.number == number)
}
