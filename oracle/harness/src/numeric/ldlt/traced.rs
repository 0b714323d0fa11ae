//! An f64 that notes what the panel step asks of it. The reference is generic
//! over its scalar, so the unchanged code runs on this one too, and what it asked
//! says what its answer leaves out: which of the pivot tests decided, the position
//! of a stop and what it stopped on, and the rounds of a block's lift.
//!
//! A step takes one reciprocal, at its end. Before it, a 1x1 step asks for at
//! most four magnitudes (the diagonal, the candidate's, and two in a lift), a
//! block's for at least six (the diagonal, the candidate's, the block's three
//! numbers, its determinant). The replay on the rows below takes reciprocals
//! with no magnitude before them. A 1x1's lift makes one number; a block's makes
//! two of the sum in each round and four at its end.
//!
//! The search takes the squares of the column and, if it goes on, as many of row
//! imax. It asks for the candidate's magnitude last. What a 1x1 step asks for after
//! that, in a run with lifts, is the chosen diagonal's: once, and once more if it
//! lifts it.
//!
//! Without a lift a step stops before its reciprocal, on one of three tests. The
//! column's compares no two numbers of the panel, a 1x1's compares the pivot with
//! zero, a block's comes after its six magnitudes.

use crate::scalar::Scalar;
use std::cell::RefCell;
use std::ops::{Add, Div, Mul, Neg, Sub};
use std::panic::{catch_unwind, resume_unwind, AssertUnwindSafe};

/// A lift of more rounds counts as one that does not end: the loop of the
/// reference has no bound, and a call's limit stops at 64 (docs/SCOPE.md).
pub const ROUNDS_WATCHED: usize = 10_000;

/// What a run stopped on.
#[derive(Clone, Copy, Debug, PartialEq, Eq)]
pub enum Stop {
    /// The column test finds zero.
    Column,
    /// The chosen 1x1 is zero.
    Single,
    /// A block is at its growth floor or below.
    Block,
}

/// What a step of the reference looked at before it had its pivot: the magnitude
/// of its diagonal, the squares of its column, those of row imax and the magnitude
/// of the candidate, a(imax, imax), if it went so far; and whether it took a block.
#[derive(Clone, Debug)]
pub struct Step {
    pub at: usize,
    pub own: f64,
    pub column: Vec<f64>,
    pub row: Option<Vec<f64>>,
    pub candidate: Option<f64>,
    pub block: bool,
}

impl Step {
    /// The test number by how far the step looked. The first two tests ask for
    /// nothing more; what they have found tells them apart.
    pub fn number(&self) -> u8 {
        let nothing = self.column.iter().fold(self.own, |most, &square| most.max(square)).max(0.0) == 0.0;
        match (&self.row, self.candidate, self.block) {
            (None, None, false) => u8::from(!nothing),
            (Some(_), None, false) => 2,
            (Some(_), Some(_), false) => 3,
            (Some(_), Some(_), true) => 4,
            _ => panic!("no step looks so: {self:?}"),
        }
    }
}

/// What a run's steps go by: the columns, the panel width used, and whether pivots
/// are lifted.
#[derive(Clone, Default)]
pub struct Panels {
    pub ncol: usize,
    pub width: usize,
    pub lifts: bool,
}

/// What a run showed: the position reached, `(position, rounds)` of each lifted
/// block, the steps that were taken, and what the next one has asked.
#[derive(Clone, Default)]
pub struct Trace {
    pub at: usize,
    pub rounds: Vec<(usize, usize)>,
    panels: Panels,
    taken: Vec<Step>,
    asked: Asked,
}

/// What a step has asked so far, in its own order: magnitudes, squares, how many
/// numbers to make, whether two numbers are equal.
#[derive(Clone, Default)]
struct Asked {
    magnitudes: Vec<f64>,
    squares: Vec<f64>,
    reals: usize,
    compared: bool,
}

impl Asked {
    fn is_block(&self) -> bool {
        self.magnitudes.len() >= 6
    }

    /// The step at a position, which has had its pivot.
    fn step(&self, at: usize, of: &Panels) -> Step {
        let ke = of.ncol.min((at / of.width + 1) * of.width);
        let (column, row) = self.squares.split_at(ke - 1 - at);
        assert!(row.is_empty() || row.len() == column.len(), "a search that stops within the row");
        let (own, others) = (self.magnitudes[0], &self.magnitudes[1..]);
        let after = match self.is_block() {
            true => others.len() - 1,
            false if of.lifts => 1 + self.reals,
            false => 0,
        };
        let (candidate, chosen) = others.split_at(others.len() - after);
        assert!(candidate.len() <= 1, "more than one candidate");
        let (row, candidate) = ((!row.is_empty()).then(|| row.to_vec()), candidate.first().copied());
        let chosen_is = candidate.unwrap_or(own).to_bits();
        assert!(self.is_block() || chosen.iter().all(|x| x.to_bits() == chosen_is), "another diagonal than the chosen");
        Step { at, own, column: column.to_vec(), row, candidate, block: self.is_block() }
    }
}

impl Trace {
    /// What the step at the position reached stopped on, if it did.
    pub fn stop(&self) -> Stop {
        match (self.asked.is_block(), self.asked.compared) {
            (true, _) => Stop::Block,
            (_, true) => Stop::Single,
            (_, false) => Stop::Column,
        }
    }

    /// The steps, with one that was begun and did not end as the last.
    pub fn steps(&self) -> Vec<Step> {
        let begun = !self.asked.magnitudes.is_empty();
        let last = begun.then(|| self.asked.step(self.at, &self.panels));
        self.taken.iter().cloned().chain(last).collect()
    }
}

/// The payload of the unwind that cuts a lift off.
struct CutOff;

thread_local! {
    static TRACE: RefCell<Trace> = RefCell::new(Trace::default());
}

fn note<R>(f: impl FnOnce(&mut Trace) -> R) -> R {
    TRACE.with(|t| f(&mut t.borrow_mut()))
}

/// Forget what was noted so far on this thread: a run in these panels begins.
pub fn begin(panels: Panels) {
    note(|t| *t = Trace { panels, ..Trace::default() });
}

/// `f`'s answer, None if it was cut off, and its trace.
pub fn watch<R>(f: impl FnOnce() -> R) -> (Option<R>, Trace) {
    let answer = match catch_unwind(AssertUnwindSafe(f)) {
        Ok(answer) => Some(answer),
        Err(why) if why.is::<CutOff>() => None,
        Err(why) => resume_unwind(why),
    };
    (answer, note(|t| t.clone()))
}

#[derive(Clone, Copy, Debug)]
pub struct Traced(f64);

impl PartialEq for Traced {
    fn eq(&self, other: &Self) -> bool {
        note(|t| t.asked.compared = true);
        self.0 == other.0
    }
}

impl Scalar for Traced {
    type Low = Traced;

    fn magnitude(self) -> f64 {
        note(|t| {
            // a step begins with the magnitude of its diagonal; multipliers were compared before
            t.asked.compared &= !t.asked.magnitudes.is_empty();
            t.asked.magnitudes.push(self.0.magnitude());
        });
        self.0.magnitude()
    }

    fn magnitude_sq(self) -> f64 {
        note(|t| t.asked.squares.push(self.0.magnitude_sq()));
        self.0.magnitude_sq()
    }

    fn from_real(r: f64) -> Self {
        let cut = note(|t| {
            t.asked.reals += 1;
            t.asked.is_block() && t.asked.reals > 2 * ROUNDS_WATCHED
        });
        if cut {
            resume_unwind(Box::new(CutOff));
        }
        Traced(r)
    }

    fn recip(self) -> Self {
        note(|t| {
            if t.asked.magnitudes.is_empty() {
                return;
            }
            let (step, asked) = (t.asked.step(t.at, &t.panels), std::mem::take(&mut t.asked));
            if step.block && asked.reals > 0 {
                t.rounds.push((t.at, (asked.reals - 4) / 2));
            }
            t.at += if step.block { 2 } else { 1 };
            t.taken.push(step);
        });
        Traced(self.0.recip())
    }

    fn zero() -> Self {
        Traced(f64::zero())
    }
    fn one() -> Self {
        Traced(f64::one())
    }
    fn real(self) -> f64 {
        self.0
    }
    fn demote(self) -> Self {
        self
    }
    fn promote(low: Self) -> Self {
        low
    }
    fn conj(self) -> Self {
        self
    }
    fn mul_add(self, _: Self, _: Self) -> Self {
        crate::left_out()
    }
    fn is_finite(self) -> bool {
        self.0.is_finite()
    }
    fn le_bytes(self, _: &mut Vec<u8>) {
        crate::left_out()
    }
}

macro_rules! binary {
    ($($op:ident $f:ident),*) => {$(
        impl $op for Traced {
            type Output = Self;
            fn $f(self, other: Self) -> Self {
                Traced(self.0.$f(other.0))
            }
        }
    )*};
}
binary!(Add add, Sub sub, Mul mul, Div div);

impl Neg for Traced {
    type Output = Self;
    fn neg(self) -> Self {
        Traced(-self.0)
    }
}
