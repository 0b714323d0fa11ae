//! The library's solve beside the text of docs/SCOPE.md, "Solve", which oracle/src/solve.rs restates: the answer, its
//! place and every cell of the vector. The factors are those of nodes that the library has factored, or any numbers.

mod call;
mod counts;
mod lists;
mod solves;
mod vectors;

use counts::{Counts, Words};
use oracle::case::*;
use oracle::random::{self, Rng};
use oracle::{lines, readings, rules, systems};
use std::collections::BTreeMap;

/// What the compared systems met, so that a reader sees what a run has tried.
#[derive(Default)]
struct Met {
    /// By the answer's number.
    answers: BTreeMap<usize, u64>,
    /// Of the accepted: with blocks, in another order than 0, 1, 2, .., with a number that is not finite in the result.
    blocks: u64,
    ordered: u64,
    unfinite: u64,
    /// Factor calls, and right sides for what they left.
    nodes: u64,
    factored: u64,
}

impl Met {
    fn note(&mut self, s: &Solve, must: &vectors::Left) {
        *self.answers.entry(call::number(&must.outcome)).or_default() += 1;
        if must.outcome.is_ok() {
            self.blocks += u64::from(s.blocks.contains(&1));
            self.ordered += u64::from(!s.order.is_sorted());
            self.unfinite += u64::from(must.vector.iter().any(|x| !x.is_finite()));
        }
    }

    fn print(&self) {
        let Met { answers, blocks, ordered, unfinite, nodes, factored } = self;
        let answered: Vec<String> = answers.iter().map(|(number, n)| format!("{number}: {n}")).collect();
        println!(
            "{} systems; accepted (0) and refused, by number: {}",
            answers.values().sum::<u64>(),
            answered.join(", ")
        );
        println!("with blocks {blocks}, in another order {ordered}, not finite in the end {unfinite}");
        println!("{nodes} factor calls, {factored} right sides for what they left");
    }
}

/// The refusals of solve. A run meets each of them, whatever its seed.
const REFUSALS: [usize; 5] = [1, 25, 26, 16, 27];

#[derive(Default)]
struct Run {
    counts: Counts,
    met: Met,
}

/// So many small systems and so many large ones. Every other one is of a node that the library has factored; one in
/// eight of the others has something wrong.
fn seeded(run: &mut Run, rng: &mut Rng, small: usize, large: usize) {
    for i in 0..small + large {
        let of_large = i.checked_sub(small);
        if i % 2 == 0 {
            run.node(rng, of_large);
        } else {
            let mut s = if of_large.is_none() { solves::small(rng) } else { solves::large(rng) };
            if rng.once_in(8) {
                random::spoil_solve(rng, &mut s);
            }
            run.one(&s);
        }
    }
}

fn main() {
    let (words, seed) = Words::read();
    call::notices();
    vectors::notices();
    stations_as_stated();
    readings_told();
    let (mut run, mut rng) = (Run::default(), Rng::new(seed));
    solves::each_once(&mut |s| _ = run.one(&s));
    solves::patterns(&mut rng, 200, &mut |s| _ = run.one(&s));
    seeded(&mut run, &mut rng, words.count(1, 1_000_000), words.count(2, 300));
    run.met.print();
    let unmet: Vec<usize> = REFUSALS.into_iter().filter(|number| !run.met.answers.contains_key(number)).collect();
    assert!(unmet.is_empty(), "no system met {unmet:?}");
    run.counts.end("compared", "differ")
}

impl Run {
    /// One call, compared; the answer's number.
    fn one(&mut self, s: &Solve) -> usize {
        let (must, read) = (vectors::must(s), vectors::read(s));
        let got = vectors::left(s);
        let mut differs = vectors::difference(&got, &must);
        if read != vectors::read(s) {
            differs = Some("a list that is lent to be read was written".into());
        }
        let line = || format!("{}\n    {}", lines::case_text(&Case::Solve(s.clone())), differs.clone().unwrap());
        self.counts.add(differs.is_none(), line);
        self.met.note(s, &must);
        call::number(&got.outcome)
    }

    /// A factor call, compared; what it left, if it was accepted.
    fn factor(&mut self, f: &Factor) -> Option<call::Left> {
        let got = call::left(f);
        let differs = call::difference(f, &got, &call::must(f));
        let line = || format!("{}\n    {}", lines::case_text(&Case::Factor(f.clone())), differs.clone().unwrap());
        self.counts.add(differs.is_none(), line);
        self.met.nodes += 1;
        got.outcome.is_ok().then_some(got)
    }

    /// The next root node that the library accepts, small or the `i`-th large one: what it leaves is never refused with
    /// a right side that is finite.
    fn node(&mut self, rng: &mut Rng, large: Option<usize>) {
        loop {
            let f = match large {
                None => solves::small_node(rng),
                Some(i) => solves::large_node(rng, i),
            };
            let Some(left) = self.factor(&f) else { continue };
            let s = solves::of_a_node(rng, &f, &left);
            let got = self.one(&s);
            self.counts.add(got == 0, || format!("{}\n    {got}", lines::case_text(&Case::Solve(s))));
            self.met.factored += 1;
            return;
        }
    }
}

/// The stations have the answers that were worked out by hand.
fn stations_as_stated() {
    for systems::Station { name, case, answer } in systems::stations() {
        let stated = match answer {
            Ok(vector) => Answer::Vector(vector),
            Err(refusal) => Answer::Refused(refusal),
        };
        let (stated, got) = (lines::answer_text(&stated), lines::answer_text(&rules::answer(&Case::Solve(case))));
        assert_eq!(got, stated, "{name}");
    }
}

/// Every wrong reading is told by a case that is compared here.
fn readings_told() {
    let cases: Vec<_> = systems::telling().into_iter().map(|(_, case)| case).collect();
    let untold: Vec<_> = readings::told(&cases).into_iter().filter(|of| of.1 == 0).collect();
    assert!(untold.is_empty(), "no case tells {untold:?}");
}
