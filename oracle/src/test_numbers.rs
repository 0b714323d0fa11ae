//! The test numbers of docs/SCOPE.md, "The pivot tests", restated: from the numbers that a step of the reference looked
//! at, and from the node as it stands at each step (`elimination.rs`). The reference names no test; `rules.rs` holds
//! the two to one another and to how far the reference looked. A reading's parts can be put otherwise
//! (`test_readings.rs`).

use crate::case::*;
use crate::elimination::{walk, At, Choice, Node, Taken};
use crate::rules;
use rslab::reach::Step;

/// What the tests compare.
#[derive(Clone, Copy)]
pub struct Looked {
    pub own: f64,
    pub colmax: f64,
    pub rowmax: f64,
    pub candidate: f64,
}

/// A reading of the text: how each number that is compared is found at a position, colmax with its row; what the
/// comparisons decide; what becomes of that once the pivot is taken; where it is noted.
#[derive(Clone, Copy)]
pub struct Reading {
    pub own: fn(&At) -> f64,
    pub colmax: fn(&At) -> (f64, usize),
    pub rowmax: fn(&At, usize) -> f64,
    pub candidate: fn(&At, usize) -> f64,
    pub decided: fn(Looked) -> u8,
    pub kept: fn(&Taken, Looked, u8) -> u8,
    pub noted: fn(&mut [u8], &Taken, u8),
}

/// The text.
pub const AS_WRITTEN: Reading =
    Reading { own, colmax, rowmax, candidate, decided, kept: |_, _, number| number, noted: at_each_position };

/// alpha, (1 + √17)/8.
pub fn alpha() -> f64 {
    (1.0 + 17f64.sqrt()) / 8.0
}

// ---- what is compared

fn own(at: &At) -> f64 {
    at.node.at(at.k, at.k).abs()
}

/// The root of the greatest of some squares, and where it stands: the first of equal ones, `from` if none is above 0.
pub fn greatest(from: usize, squares: impl Iterator<Item = (usize, f64)>) -> (f64, usize) {
    let (i, square) = squares.fold((from, 0.0), |best, next| if next.1 > best.1 { next } else { best });
    (square.sqrt(), i)
}

/// The squares of a row or column in some places.
pub fn squares<'a>(
    at: &'a At,
    r: usize,
    places: impl Iterator<Item = usize> + 'a,
) -> impl Iterator<Item = (usize, f64)> + 'a {
    places.map(move |i| (i, at.node.at(i, r) * at.node.at(i, r)))
}

fn colmax(at: &At) -> (f64, usize) {
    greatest(at.k, squares(at, at.k, at.k + 1..at.ke))
}

fn rowmax(at: &At, imax: usize) -> f64 {
    greatest(at.k, squares(at, imax, (at.k..imax).chain(imax + 1..at.ke))).0
}

fn candidate(at: &At, imax: usize) -> f64 {
    at.node.at(imax, imax).abs()
}

// ---- what decides

/// The number of the first test that holds; 4 if none does.
pub fn decided(Looked { own, colmax, rowmax, candidate }: Looked) -> u8 {
    if own.max(colmax) == 0.0 {
        0
    } else if own >= alpha() * colmax {
        1
    } else if own >= (alpha() * colmax) * (colmax / rowmax) {
        2
    } else if candidate >= alpha() * rowmax {
        3
    } else {
        4
    }
}

/// A block's at both positions.
fn at_each_position(tests: &mut [u8], taken: &Taken, number: u8) {
    let k = taken.at.k;
    tests[k] = number;
    if taken.choice.is_block() {
        tests[k + 1] = number;
    }
}

/// The test number of a step of the reference, by the numbers that it looked at. What it did not look at is taken for a
/// not-a-number, which decides nothing.
pub fn of_step(step: &Step) -> u8 {
    let root = |squares: &[f64]| greatest(0, squares.iter().copied().enumerate()).0;
    decided(Looked {
        own: step.own,
        colmax: root(&step.column),
        rowmax: step.row.as_deref().map_or(f64::NAN, root),
        candidate: step.candidate.unwrap_or(f64::NAN),
    })
}

impl Reading {
    pub fn looked(&self, at: &At) -> (Looked, usize) {
        let (colmax, imax) = (self.colmax)(at);
        let (rowmax, candidate) = ((self.rowmax)(at, imax), (self.candidate)(at, imax));
        (Looked { own: (self.own)(at), colmax, rowmax, candidate }, imax)
    }

    fn choice(&self, at: &At) -> Choice {
        let (looked, imax) = self.looked(at);
        Choice { number: (self.decided)(looked), imax }
    }

    /// What the steps note if no refusal ends them.
    pub fn noted(&self, f: &Factor) -> Vec<u8> {
        let mut tests = vec![0; f.settings.ncol];
        let note = |taken: &Taken| {
            let looked = self.looked(taken.at).0;
            let number = (self.kept)(taken, looked, (self.decided)(looked));
            (self.noted)(&mut tests, taken, number);
        };
        walk(&f.settings, &f.panel, f.settings.ncol, |at| AS_WRITTEN.choice(at), note);
        tests
    }

    /// What a factor call leaves in the buffer of its test numbers, if it is accepted.
    pub fn answer(&self, f: &Factor) -> Option<Vec<u8>> {
        let accepted = matches!(rules::answer(&Case::Factor(f.clone())), Answer::Accepted { .. });
        accepted.then(|| self.noted(f))
    }
}

/// The positions and test numbers of a run's steps up to a position, by the text alone, from the head: the tail steers
/// nothing. The head as it is left, too.
pub fn steps(s: &Settings, panel: &[f64], until: usize) -> (Vec<(usize, u8)>, Node) {
    let head: Vec<f64> = (0..s.ncol).flat_map(|j| &panel[j * s.nrow..j * s.nrow + s.ncol]).copied().collect();
    let (choices, left) = walk(&Settings { nrow: s.ncol, ..*s }, &head, until, |at| AS_WRITTEN.choice(at), |_| ());
    (choices.into_iter().map(|(k, choice)| (k, choice.number)).collect(), left)
}
