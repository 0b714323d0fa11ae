//! Nodes for factor calls: every setting at its bounds, every tiny node over a
//! few numbers, nodes that stop, seeded random ones small and large, and pairs
//! that differ below the head.

use oracle::case::*;
use oracle::random::{self, Bounds, Rng};
use oracle::telling;

/// The bounds of the random nodes.
pub const BOUNDS: Bounds = Bounds { max_col: 12, max_row: 20 };

// ---- settings

/// An identity head over a zero tail; a shape that is refused has no numbers.
fn identity(ncol: usize, nrow: usize, nb: usize, mode: Mode, limit: usize) -> Factor {
    let settings = Settings { ncol, nrow, nb, mode, limit };
    if ncol > 128 || nrow > 1024 || nrow < ncol || nb > 65 {
        return Factor { settings, panel: Vec::new(), lengths: Some(vec![0; BUFFERS.len()]) };
    }
    let mut panel = vec![0.0; ncol * nrow];
    (0..ncol).for_each(|k| panel[k + k * nrow] = 1.0);
    Factor { settings, panel, lengths: None }
}

/// Refusals 1 to 5: settings within their bounds, at them and beyond.
pub fn settings(each: &mut dyn FnMut(Factor)) {
    let max = usize::MAX;
    let floors = [1.0, f64::MAX, 5e-324, 0.0, -0.0, -1.0, f64::NAN, f64::INFINITY, f64::NEG_INFINITY];
    let modes = || floors.map(Mode::Lift).into_iter().chain([Mode::Fail]);
    let shapes = [(0, 0), (0, 1), (1, 1), (2, 1), (3, 5), (128, 128), (0, 1024), (1, 1025), (129, 129), (max, max)];
    for (ncol, nrow) in shapes.into_iter().chain([(0, max), (max, 0), (128, 127)]) {
        for nb in [0, 1, 2, 64, 65, max] {
            for limit in [0, 1, 64, 65, max] {
                modes().for_each(|mode| each(identity(ncol, nrow, nb, mode, limit)));
            }
        }
    }
}

/// Refusal 3: each buffer, the input too, one cell too long or too short.
pub fn lengths(each: &mut dyn FnMut(Factor)) {
    for (ncol, nrow) in [(0, 0), (1, 1), (2, 5)] {
        let sound = identity(ncol, nrow, 2, Mode::Fail, 1);
        let stated = stated_lengths(&sound.settings);
        for off in [-1, 1] {
            for which in 0..stated.len() {
                let mut f = sound.clone();
                let mut lengths = stated.clone();
                lengths[which] = lengths[which].saturating_add_signed(off);
                f.lengths = Some(lengths);
                each(f);
            }
            let mut f = sound.clone();
            f.panel.resize(stated[0].saturating_add_signed(off), 1.0);
            f.lengths = Some(stated.clone());
            each(f);
        }
    }
}

/// Both modes, for every node that is tried whole.
const MODES: [(Mode, usize); 3] = [(Mode::Fail, 1), (Mode::Lift(0.5), 1), (Mode::Lift(2.0), 2)];

// ---- tiny nodes

/// Every way to fill the lower positions with the given numbers; the upper ones hold not-a-numbers.
fn fillings(ncol: usize, nrow: usize, of: &[f64], each: &mut dyn FnMut(Vec<f64>)) {
    let lower: Vec<usize> = (0..ncol * nrow).filter(|at| at % nrow >= at / nrow).collect();
    for code in 0..of.len().pow(lower.len() as u32) {
        let mut panel: Vec<f64> = (0..ncol * nrow).map(|at| random::payload((code + at) as u64 * 2)).collect();
        let mut rest = code;
        for &at in &lower {
            panel[at] = of[rest % of.len()];
            rest /= of.len();
        }
        each(panel);
    }
}

/// One to three columns: every filling, every panel width, both modes. The numbers: zeros of both
/// signs, small ones that make blocks and ties, some whose squares vanish or overflow.
pub fn tiny(each: &mut dyn FnMut(Factor)) {
    let eight = [0.0, -0.0, 1.0, -0.5, 2.0, 1e-170, -1e200, 1e308];
    let six = [0.0, -0.0, 1.0, -0.5, 3.0, 1e200];
    let three = [-0.0, 1.0, -1e160];
    let shapes = [(1, 1, &eight[..]), (1, 2, &eight), (1, 3, &eight), (2, 2, &eight), (2, 3, &eight), (3, 3, &six)];
    for (ncol, nrow, of) in shapes.into_iter().chain([(3, 4, &three[..])]) {
        fillings(ncol, nrow, of, &mut |panel| {
            for nb in 1..=ncol {
                for (mode, limit) in MODES {
                    let settings = Settings { ncol, nrow, nb, mode, limit };
                    each(Factor { settings, panel: panel.clone(), lengths: None });
                }
            }
        });
    }
}

// ---- nodes that stop

/// Refusals 7, 23 and 24 at every position up to 4 and a stop's own, in every panel: columns before and after, tail
/// rows, every panel width (narrow ones part a stop's columns), both modes.
pub fn stops(each: &mut dyn FnMut(Factor)) {
    for stop in &telling::STOPS {
        for (before, after, tail) in (0..5).flat_map(|b| (0..3).flat_map(move |a| (0..3).map(move |t| (b, a, t)))) {
            for nb in 1..=before + stop.columns.len() + after {
                for (mode, limit) in MODES {
                    each(stop.among(before, after, tail, nb, mode, limit));
                }
            }
        }
    }
}

// ---- random nodes

/// A random node within the bounds; some hold not-a-numbers with payloads in upper positions.
pub fn random(rng: &mut Rng) -> Factor {
    let Some(Case::Factor(mut f)) = random::case(rng, "factor", BOUNDS) else { unreachable!() };
    if rng.once_in(3) {
        random::upper_payloads(rng, f.settings.nrow, &mut f.panel);
    }
    f
}

/// The row of a panel, by column.
pub fn row(f: &Factor, panel: &[f64], i: usize) -> Vec<f64> {
    (0..f.settings.ncol).map(|j| panel[i + j * f.settings.nrow]).collect()
}

/// A node with the head of another below its diagonal and something else above; its own number of
/// tail rows, some of them copies of the other's at other places.
pub fn sibling(rng: &mut Rng, of: &Factor, max_row: usize) -> Factor {
    let Settings { ncol, nrow: had, .. } = of.settings;
    let nrow = rng.within(ncol, max_row);
    let mut panel: Vec<f64> = (0..ncol * nrow).map(|_| random::any_number(rng)).collect();
    for i in 0..nrow {
        let copied = if i < ncol { Some(i) } else { (had > ncol && rng.once_in(2)).then(|| rng.within(ncol, had - 1)) };
        if let Some(from) = copied {
            let last = if i < ncol { i + 1 } else { ncol };
            (0..last).for_each(|j| panel[i + j * nrow] = of.panel[from + j * had]);
        }
    }
    let mut f = Factor { settings: Settings { nrow, ..of.settings }, panel, lengths: None };
    random::upper_payloads(rng, f.settings.nrow, &mut f.panel);
    f
}
