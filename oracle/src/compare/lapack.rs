//! The library's factor, solve and pivot lists beside LAPACK's dsytf2 and dsytrs, on symmetric indefinite systems that
//! are well-conditioned. Residuals ‖Ax − b‖ are taken with twice the digits.
//!
//! What is printed is the library's residual as a multiple of LAPACK's own, or of eps·‖A‖·‖x‖ where that is more: a
//! residual below it is luck, and can be 0.
//!
//! The library searches pivots within a panel only, so that several panels can let the numbers of the factor grow where
//! LAPACK's search of the whole column does not. That is the factor's doing and not the solve's. Where a panel's search
//! is as good as the whole (one panel; a dominant diagonal; each column's partner in its panel) the multiple is held to
//! LIMIT; elsewhere the multiple over the growth ‖|L|·|D|·|L|ᵀ‖/‖A‖ is.
//!
//! The lists of pivots are looked at in lapack_lists.rs, on the same systems.

mod counts;
mod factored;
mod fortran;
mod lapack_lists;
mod matrices;
mod norms;

use counts::{Counts, Words};
use factored::Factored;
use lapack_lists::Lists;
use matrices::{Kind, KINDS, SIZES};
use norms::{greatest, grown, norm, residual};
use oracle::random::Rng;

/// The greatest multiple that passes. In 132,000 systems 3.8 was seen at most, over growth in another 48,000 1.1.
pub const LIMIT: f64 = 8.0;

// ---- a system

pub struct System {
    pub name: String,
    pub n: usize,
    pub a: Vec<f64>,
    pub b: Vec<f64>,
    /// A panel's search is as good as the whole column's.
    pub searched: bool,
    /// The library's factor.
    pub ours: Factored,
    /// What dsytf2 leaves.
    pub theirs: Vec<f64>,
    pub list: Vec<i32>,
    /// LAPACK's solution.
    pub x: Vec<f64>,
}

impl System {
    /// The next of a kind, with so many columns, or why the library refuses to factor it.
    fn next(rng: &mut Rng, kind: &Kind, n: usize) -> Result<System, String> {
        let (narrow, wide) = (kind.widths)(n);
        let nb = rng.within(narrow, wide);
        let (a, b) = ((kind.matrix)(rng, n, nb), matrices::random_numbers(rng, n));
        let (mut theirs, mut list, mut x) = (a.clone(), vec![0; n], b.clone());
        fortran::dsytf2(n, &mut theirs, &mut list);
        fortran::dsytrs(n, &theirs, &list, &mut x);
        let name = format!("{}, {n} columns, panel width {nb}", kind.name);
        let ours = Factored::of(n, nb, &a).map_err(|refusal| format!("{name}: {refusal}"))?;
        Ok(System { name, n, a, b, searched: kind.searched, ours, theirs, list, x })
    }

    /// The residual of a solution as a multiple of LAPACK's.
    pub fn multiple(&self, x: &[f64]) -> f64 {
        let System { n, a, b, x: theirs, .. } = self;
        let unit = f64::EPSILON * norm(*n, a) * greatest(theirs.iter().copied());
        residual(*n, a, x, b) / residual(*n, a, theirs, b).max(unit)
    }

    /// How much the numbers of the library's factor have grown.
    fn growth(&self) -> f64 {
        (grown(&self.ours) / norm(self.n, &self.a)).max(1.0)
    }

    /// The multiple of a solution by the library's factor, and that over growth.
    pub fn seen(&self, x: &[f64]) -> Seen {
        let multiple = self.multiple(x);
        Seen { multiple, over_growth: multiple / self.growth() }
    }
}

/// Of some solutions by the library's factor the greatest multiple, and the greatest multiple over growth.
#[derive(Clone, Copy, Default)]
pub struct Seen {
    pub multiple: f64,
    pub over_growth: f64,
}

impl Seen {
    pub fn or(self, other: Seen) -> Seen {
        let (multiple, over_growth) = (self.multiple.max(other.multiple), self.over_growth.max(other.over_growth));
        Seen { multiple, over_growth }
    }

    /// What is held to LIMIT.
    pub fn held(self, of: &System) -> f64 {
        if of.searched {
            self.multiple
        } else {
            self.over_growth
        }
    }
}

// ---- the run

#[derive(Default)]
struct Run {
    counts: Counts,
    lists: Lists,
}

impl Run {
    /// One system, the i-th of its class, or a refusal of a call that must accept.
    fn one(&mut self, system: &System, i: usize) -> Result<Seen, String> {
        let named = |refusal: String| format!("{}: {refusal}", system.name);
        let seen = system.seen(&system.ours.solved(&system.b).map_err(named)?);
        let held = seen.held(system);
        self.counts.add(held <= LIMIT, || format!("{}: {held:.2}", system.name));
        self.lists.compared(&mut self.counts, system, i).map_err(named)?;
        Ok(seen)
    }

    /// So many systems of a kind and a class of sizes; one in eight has the most columns of the class.
    fn class(&mut self, rng: &mut Rng, kind: &Kind, (least, most): (usize, usize), count: usize) -> Seen {
        let mut seen = Seen::default();
        for i in 0..count {
            let n = if i % 8 == 0 { most } else { rng.within(least, most) };
            match System::next(rng, kind, n).and_then(|system| self.one(&system, i)) {
                Ok(one) => seen = seen.or(one),
                Err(refusal) => self.counts.add(false, || refusal),
            }
        }
        let Seen { multiple, over_growth } = seen;
        println!("{}, {least} to {most} columns: {multiple:.2}, over growth {over_growth:.2}", kind.name);
        seen
    }
}

fn main() {
    let (words, seed) = Words::read();
    let (mut run, mut rng, count) = (Run::default(), Rng::new(seed), words.count(1, 250));
    println!("the greatest residuals as multiples of LAPACK's, of {count} systems each");
    let (mut searched, mut others) = (Seen::default(), Seen::default());
    for kind in &KINDS {
        for sizes in SIZES.into_iter().filter(|sizes| sizes.1 <= kind.most) {
            let seen = run.class(&mut rng, kind, sizes, count);
            let of = if kind.searched { &mut searched } else { &mut others };
            *of = of.or(seen);
        }
    }
    let (multiple, over_growth) = (searched.multiple, others.over_growth);
    println!("greatest where a panel's search is as good: {multiple:.2}; elsewhere, over growth: {over_growth:.2}");
    Lists::guides_head(&mut run.counts);
    run.lists.print(&mut run.counts);
    run.counts.end("compared", "differ or are beyond their bound")
}
