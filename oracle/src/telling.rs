//! Hand-made cases: the stations and corner cases of docs/SCOPE.md, "Stations",
//! and cases that tell the reference from a wrong port of it. Those of solve are in
//! `systems.rs`, those of the pivot lists in `pivot_cases.rs`, those of the
//! magnitude in `magnitude.rs`, those of the test numbers in `test_cases.rs`.

use crate::case::*;
use crate::{magnitude, pivot_cases, systems, test_cases};

pub type Named = (String, Case);

fn called(name: &str, settings: Settings, panel: Vec<f64>) -> Named {
    (name.to_string(), Case::Factor(Factor { settings, panel, lengths: None }))
}

fn factor(name: &str, nrow: usize, nb: usize, mode: Mode, limit: usize, columns: &[&[f64]]) -> Named {
    // Columns from the diagonal down; what stands above is 0.0.
    let ncol = columns.len();
    let mut panel = vec![0.0; nrow * ncol];
    for (j, column) in columns.iter().enumerate() {
        assert_eq!(column.len(), nrow - j);
        panel[j + j * nrow..(j + 1) * nrow].copy_from_slice(column);
    }
    called(name, Settings { ncol, nrow, nb, mode, limit }, panel)
}

pub fn fail(name: &str, nrow: usize, nb: usize, columns: &[&[f64]]) -> Named {
    factor(name, nrow, nb, Mode::Fail, 1, columns)
}

pub fn lift(name: &str, nrow: usize, nb: usize, floor: f64, limit: usize, columns: &[&[f64]]) -> Named {
    factor(name, nrow, nb, Mode::Lift(floor), limit, columns)
}

fn settings(name: &str, ncol: usize, nrow: usize, nb: usize, mode: Mode, limit: usize) -> Named {
    let mut panel = vec![0.0; ncol * nrow];
    (0..ncol).for_each(|k| panel[k + k * nrow] = 1.0);
    called(name, Settings { ncol, nrow, nb, mode, limit }, panel)
}

fn panel(name: &str, ncol: usize, nrow: usize, panel: &[f64]) -> Named {
    called(name, Settings { ncol, nrow, nb: ncol, mode: Mode::Fail, limit: 1 }, panel.to_vec())
}

fn update(name: &str, rows: &[u32], given: &[f64], k: Descendant) -> Named {
    let place = Place { first: rows[0], rows: rows.to_vec() };
    (name.to_string(), Case::Update(Update { ncol: 1, nrow: rows.len(), place, panel: given.to_vec(), descendant: k }))
}

/// A descendant of one column: its rows below with their L, and d.
fn column(rows: &[u32], l: &[f64], d: f64) -> Descendant {
    let panel = std::iter::once(&d).chain(l).copied().collect();
    Descendant { ncol: 1, below: rows.len(), rows: rows.to_vec(), panel, d: vec![d], sub: vec![0.0], blocks: vec![0] }
}

fn counted(name: &str, d: &[f64], blocks: &[u8]) -> Named {
    (name.to_string(), Case::Inertia(Inertia { d: d.to_vec(), sub: vec![0.0; d.len()], blocks: blocks.to_vec() }))
}

/// docs/SCOPE.md, "Stations", with its corner cases, but for those among [`STOPS`].
pub fn stations() -> Vec<Named> {
    let solves = systems::stations().into_iter().map(|of| (format!("solve: {}", of.name), Case::Solve(of.case)));
    let lists = pivot_cases::stations().into_iter().map(|of| (of_list(of.name, &of.case), of.case));
    let numbered = test_cases::stations().into_iter().map(|of| of.named);
    other_stations().into_iter().chain(numbered).chain(solves).chain(lists).collect()
}

/// The name of a case of a pivot list, with its call.
fn of_list(name: &str, case: &Case) -> String {
    format!("{} LAPACK: {name}", if matches!(case, Case::ToLapack(_)) { "to" } else { "from" })
}

/// Those of the other calls.
fn other_stations() -> Vec<Named> {
    let nan = f64::NAN;
    vec![
        settings("no column, three rows: order 0 1 2, counts 0 0 0", 0, 3, 1, Mode::Fail, 1),
        fail("[4], tail 6: d 4, L 1.5, mark 0", 2, 1, &[&[4.0, 6.0]]),
        fail("[0]: 7 at 0", 1, 1, &[&[0.0]]),
        lift("[-0.5], Lift 0.5: unlifted", 1, 1, 0.5, 1, &[&[-0.5]]),
        fail("[0,1; 0], nb 1: 7 at 0", 2, 1, &[&[0.0, 1.0], &[0.0]]),
        lift("[0,1; 0], Lift 2, limit 1: 8 at 0", 2, 2, 2.0, 1, &[&[0.0, 1.0], &[0.0]]),
        lift("[0,1; 0], Lift 2, limit 2: d 4 4, rounds 2", 2, 2, 2.0, 2, &[&[0.0, 1.0], &[0.0]]),
        counted("a block 0, 0, 0: counts 1 0 1", &[0.0, 0.0], &[1, 0]),
        counted("a 1x1 not-a-number: counts 0 0 1", &[nan], &[0]),
        fail("[2^-1074]: 9 at 0", 1, 1, &[&[LEAST]]),
        fail("[0.25], tail 1.5e308: accepted, mark 1", 2, 1, &[&[0.25, 1.5e308]]),
        fail("not-a-number at row 1, column 0: 6 at 0, 1", 2, 2, &[&[1.0, nan], &[1.0]]),
        panel("not-a-number above the diagonal: accepted", 2, 2, &[1.0, 0.0, nan, 1.0]),
        update("update: 6 14", &[5, 7], &[10.0, 20.0], column(&[5, 7], &[2.0, 3.0], 1.0)),
        update("row 7 absent: 17 at 1", &[5, 8], &[10.0, 20.0], column(&[5, 7], &[2.0, 3.0], 1.0)),
        settings("ncol 128, nb 64, limit 64 pass", 128, 128, 64, Mode::Lift(0.5), 64),
        settings("ncol 129: 1", 129, 129, 64, Mode::Lift(0.5), 64),
        settings("nb 65: 2", 2, 2, 65, Mode::Lift(0.5), 64),
        settings("limit 65: 5", 2, 2, 2, Mode::Lift(0.5), 65),
        lift("a block with an infinite determinant in Lift: 9 at 0", 2, 2, 0.5, 1, &[&[0.0, 1e200], &[0.0]]),
        fail("the determinant overflows, its floor does not: 9 at 0", 2, 2, &[&[0.0, 1e160], &[0.0]]),
        lift("-0 lifts to +floor", 1, 1, 0.5, 1, &[&[-0.0]]),
        lift("a lift overflows: 9 at 0", 1, 1, 1.0, 1, &[&[LEAST]]),
        lift("a lift lands a step below the floor", 2, 1, 3.0, 1, &[&[-2.0, -2.0], &[-2.0]]),
        lift("three rounds", 3, 3, 1.0, 3, &[&[0.0, 0.75, 0.0], &[-1.25, 2.0], &[0.0]]),
        lift("three rounds, limit 2: 8 at 0", 3, 3, 1.0, 2, &[&[0.0, 0.75, 0.0], &[-1.25, 2.0], &[0.0]]),
    ]
}

/// A head that stops in Fail, in one panel: by its columns from the diagonal
/// down, and the refusal's number and position.
pub struct Stop {
    pub name: &'static str,
    pub number: usize,
    pub at: usize,
    pub columns: &'static [&'static [f64]],
}

const fn stop(number: usize, at: usize, name: &'static str, columns: &'static [&'static [f64]]) -> Stop {
    Stop { name, number, at, columns }
}

/// Refusals 7, 23 and 24. What tells them apart: a zero column is not a 1x1 of
/// zero, nor is a not-a-number; −0 is zero; a block at its growth floor is too
/// low, one above it is not; the place is the position, and neither imax nor the
/// row that the position had in the input.
pub const STOPS: [Stop; 16] = [
    stop(7, 0, "a zero column", &[&[0.0]]),
    stop(7, 0, "a zero column of -0", &[&[-0.0]]),
    stop(7, 0, "a column whose only square vanishes", &[&[0.0, 1e-170], &[1.0]]),
    stop(7, 1, "a not-a-number diagonal over zeros", &[&[LEAST, 0.0], &[1.0]]),
    stop(7, 1, "two columns alike: the second is zero then", &[&[1.0, 1.0], &[1.0]]),
    stop(7, 1, "a zero column that was row 0", &[&[0.5, 2.0], &[8.0]]),
    stop(23, 0, "a 1x1 of zero: the row test's product vanishes", &[&[0.0, 1e-160, 0.0], &[0.0, 1e150], &[0.0]]),
    stop(23, 0, "a 1x1 of zero: colmax/rowmax vanishes", &[&[0.0, 1.0, 0.0], &[0.0, 1e160], &[0.0]]),
    stop(23, 0, "a 1x1 of -0", &[&[-0.0, 1.0, 0.0], &[0.0, 1e160], &[0.0]]),
    stop(23, 0, "a 1x1 of zero, imax 2", &[&[0.0, 0.0, 1.0, 0.0], &[3.0, 0.0, 0.0], &[0.0, 1e160], &[0.0]]),
    stop(23, 1, "a 1x1 of zero that was row 0", &[&[0.5, 2.0, 1.0, 0.0], &[8.0, 0.0, 0.0], &[0.0, 1e160], &[0.0]]),
    stop(24, 0, "a low block: infinite, as its growth floor is", &[&[0.0, 1e200], &[0.0]]),
    stop(24, 0, "a low block: below its growth floor", &[&[0.0, 1.0, 0.0], &[1e8, 1e9], &[0.0]]),
    stop(24, 0, "a low block: at its growth floor", &[&[0.0, 1.0, 0.0], &[1e7, 1e9], &[0.0]]),
    stop(24, 0, "a low block, imax 2", &[&[0.0, 0.0, 1.0, 0.0], &[3.0, 0.0, 0.0], &[1e8, 1e9], &[0.0]]),
    stop(24, 1, "a low block that was rows 0 and 2", &[&[0.5, 2.0, 1.0, 0.0], &[8.0, 0.0, 0.0], &[1e8, 1e9], &[0.0]]),
];

/// 2^-1074.
pub const LEAST: f64 = f64::from_bits(1);

impl Stop {
    /// Columns of the unit matrix before and after the head, over tail rows of
    /// ones; the stop is then `before` positions later.
    pub fn among(&self, before: usize, after: usize, tail: usize, nb: usize, mode: Mode, limit: usize) -> Factor {
        let ncol = before + self.columns.len() + after;
        let nrow = ncol + tail;
        let mut panel = vec![0.0; nrow * ncol];
        for j in 0..ncol {
            let column = &mut panel[j * nrow..(j + 1) * nrow];
            column[ncol..].fill(1.0);
            match j.checked_sub(before).and_then(|own| self.columns.get(own)) {
                Some(own) => column[j..j + own.len()].copy_from_slice(own),
                None => column[j] = 1.0,
            }
        }
        Factor { settings: Settings { ncol, nrow, nb, mode, limit }, panel, lengths: None }
    }

    /// The head alone, at a later position, in a later panel; with lifts, where
    /// no run stops.
    fn named(&self) -> [Named; 4] {
        let Stop { name, number, at, columns } = *self;
        let n = columns.len();
        let named = |how: &str, f: Factor| (format!("{name}{how}"), Case::Factor(f));
        let stops = |how: &str, before: usize, nb: usize| {
            named(&format!("{how}: {number} at {}", before + at), self.among(before, 0, 0, nb, Mode::Fail, 1))
        };
        let lifted = named(", Lift 0.5: no stop", self.among(0, 0, 0, n, Mode::Lift(0.5), 1));
        [stops("", 0, n), stops(", later", 1, n + 1), stops(", in a later panel", n, n), lifted]
    }
}

/// For each wrong port or reading that looks fine, cases that it answers otherwise.
pub fn telling() -> Vec<Named> {
    let solves = systems::telling().into_iter().map(|(name, s)| (format!("solve: {name}"), Case::Solve(s)));
    let magnitudes = magnitude::TELLING.map(|(name, bits)| (format!("magnitude: {name}"), Case::Magnitude(bits)));
    let lists = pivot_cases::telling().into_iter().map(|(name, case)| (of_list(name, &case), case));
    let tests = test_cases::telling().into_iter().map(|(name, case)| (format!("test numbers: {name}"), case));
    let heads = STOPS.iter().flat_map(Stop::named).chain(wrong_ports()).chain(tests);
    heads.chain(magnitudes).chain(solves).chain(lists).collect()
}

fn wrong_ports() -> Vec<Named> {
    let tiny = f64::powi(2.0, -27);
    let bit = f64::powi(2.0, -30);
    let below = f64::from_bits(1e7f64.to_bits() - 1);
    // 1 less their product lies by a middle of two numbers
    let (d11, d22) = (0.5234648976475, 0.6219641659408808);
    vec![
        fail("squares: 1e-170 is hidden, no exchange", 2, 2, &[&[1e-200, 1e-170], &[1.0]]),
        fail("squares: the first of two that overflow, 7 at 2", 3, 3, &[&[0.0, 1e160, 1e200], &[0.0, 0.0], &[0.0]]),
        fail("squares: the first of two that round alike", 3, 3, &[&[1e-163, 2.0e-162, 2.2e-162], &[1.0, 0.0], &[1.0]]),
        fail(
            "squares: one that lost digits, its root is above the number: order 1 0",
            2,
            2,
            &[&[1.35e-162, 2e-162], &[1.0]],
        ),
        fail("squares: one that lost digits, in row imax: a block, 9 at 0", 2, 2, &[&[0.0, 2e-162], &[1.35e-162]]),
        fail("squares: one that is infinite, so is its root: a block, 9 at 0", 2, 2, &[&[1e156, 1e155], &[1.0]]),
        fail("zero multipliers skipped in the head: -0 stays", 3, 3, &[&[1.0, 0.0, -1.0], &[1.0, -0.0], &[5.0]]),
        fail("zero multipliers skipped in the tail: -0 stays", 3, 2, &[&[1.0, 0.0, -1.0], &[1.0, -0.0]]),
        fail(
            "a block's zero multipliers applied: -0 goes",
            4,
            4,
            &[&[0.0, 1.0, 0.0, -1.0], &[0.0, 0.0, 0.0], &[1.0, -0.0], &[1.0]],
        ),
        fail(
            "a block's zero multipliers applied in the tail",
            4,
            3,
            &[&[0.0, 1.0, 0.0, -1.0], &[0.0, 0.0, 0.0], &[1.0, -0.0]],
        ),
        fail("not fused in the head: 7 at 1", 2, 2, &[&[1.0, 1.0 + bit], &[1.0 + 2.0 * bit]]),
        fail("not fused in the tail", 3, 2, &[&[1.0, 1.0 + bit, 1.0 + bit], &[4.0, 1.0 + 2.0 * bit]]),
        fail("not fused in a later panel: 7 at 1", 2, 1, &[&[1.0, 1.0 + bit], &[1.0 + 2.0 * bit]]),
        fail("d21·d21 not fused in a determinant", 3, 2, &[&[1.5 * tiny, 1.0 + tiny, 1.0], &[-tiny, 1.0]]),
        fail("d11·d22 not fused in a determinant", 3, 2, &[&[d11, 1.0, 1.0], &[d22, 0.0]]),
        fail("no block across ke: 7 at 1", 3, 2, &[&[1.0, 0.0, 0.0], &[0.0, 1.0], &[0.0]]),
        fail("no block across ke: 1x1 of 0.125", 3, 2, &[&[1.0, 0.0, 0.0], &[0.125, 1.0], &[0.0]]),
        lift("no block across ke: 1x1 lifted", 3, 2, 0.5, 1, &[&[1.0, 0.0, 0.0], &[0.0, 1.0], &[0.0]]),
        lift("no lift at the floor", 2, 2, 0.5, 1, &[&[-0.5, 0.125], &[0.25]]),
        fail("a block right above its growth floor", 3, 3, &[&[0.0, 1.0, 0.0], &[below, 1e9], &[1.0]]),
        fail("a singular block whose determinant is a not-a-number: 9 at 0", 2, 2, &[&[1e200, 1e200], &[1e200]]),
        fail("ties to the first in a column", 3, 3, &[&[0.0, 1.0, -1.0], &[0.0, 0.0], &[3.0]]),
        lift("a block's amount is the sum, not new less old", 2, 2, 0.9, 1, &[&[0.3, 0.6], &[0.2]]),
        fail("acc from +0.0: -0 stays", 3, 1, &[&[1.0, 0.0, -1.0], &[1.0, -0.0], &[5.0]]),
        fail("acc from +0.0, not from x", 3, 2, &[&[1.0, 0.0, tiny], &[1.0, tiny], &[1.0]]),
        update("acc from +0.0 in an update: -0 stays", &[5, 7], &[-0.0, -0.0], column(&[5, 7], &[0.0, -1.0], 1.0)),
        update("acc from +0.0 in an update, not from x", &[5], &[1.0], two_columns(5, tiny)),
    ]
}

/// A descendant of two columns, d 1 and 1, with the same L in both at one row.
fn two_columns(row: u32, l: f64) -> Descendant {
    let panel = vec![1.0, 0.0, l, 0.0, 1.0, l];
    Descendant { ncol: 2, below: 1, rows: vec![row], panel, d: vec![1.0; 2], sub: vec![0.0; 2], blocks: vec![0; 2] }
}
