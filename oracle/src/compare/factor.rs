//! The library's factor call beside the reference: the answer, its place and
//! every lent cell. Pairs of calls hold it to demand 3 as well.

mod call;
mod counts;
mod nodes;

use call::{difference, left, must, number, Left};
use counts::{Counts, Words};
use oracle::case::*;
use oracle::random::{self, Rng};
use oracle::{lines, rules, telling, test_cases, test_readings};
use std::collections::BTreeMap;

/// What the compared nodes met, so that a reader sees what a run has tried.
#[derive(Default)]
struct Met {
    /// By the answer's number.
    answers: BTreeMap<usize, u64>,
    blocks: u64,
    lifts: u64,
    rounds: u64,
    marks: u64,
    panels: u64,
    pairs: u64,
    /// Accepted calls by the test numbers that they have, in Fail and in Lift.
    tests: [[u64; 5]; 2],
}

impl Met {
    fn note(&mut self, f: &Factor, l: &Left) {
        let (b, s) = (&l.buffers, &f.settings);
        *self.answers.entry(number(&l.outcome)).or_default() += 1;
        if let Ok(report) = l.outcome {
            self.blocks += u64::from(b.blocks.contains(&1));
            self.lifts += u64::from(b.lifted.contains(&1));
            self.rounds += u64::from(report.rounds > 1);
            self.marks += u64::from(b.marks.contains(&1));
            self.panels += u64::from(s.nb < s.ncol);
            let tests = &mut self.tests[usize::from(s.mode.floor().is_some())];
            tests.iter_mut().zip(0..).for_each(|(calls, test)| *calls += u64::from(b.tests.contains(&test)));
            assert!(b.tests.iter().zip(&b.lifted).all(|at| at != (&0, &0)), "a zero column that is not lifted");
        }
    }

    fn print(&self) {
        let Met { answers, blocks, lifts, rounds, marks, panels, pairs, tests: [fail, lift] } = self;
        let answered: Vec<String> = answers.iter().map(|(number, n)| format!("{number}: {n}")).collect();
        println!("accepted (0) and refused, by number: {}; pairs: {pairs}", answered.join(", "));
        println!("with blocks {blocks}, lifts {lifts}, more rounds than one {rounds}, marks {marks}, panels {panels}");
        println!("accepted with the test numbers 0 to 4: in Fail {fail:?}, in Lift {lift:?}");
    }

    /// Each refusal was met, and each test number in either mode; but 0 in Lift alone.
    fn hold(&self) {
        let unmet: Vec<usize> = REFUSALS.into_iter().filter(|number| !self.answers.contains_key(number)).collect();
        assert!(unmet.is_empty(), "no node met {unmet:?}");
        let [fail, lift] = self.tests;
        let all = fail[0] == 0 && !fail[1..].contains(&0) && !lift.contains(&0);
        assert!(all, "a test number was met nowhere, or 0 in Fail: {fail:?}, {lift:?}");
    }
}

/// The refusals of a factor call. A run meets each of them, whatever its seed.
const REFUSALS: [usize; 11] = [1, 2, 3, 4, 5, 6, 7, 8, 9, 23, 24];

#[derive(Default)]
struct Run {
    counts: Counts,
    met: Met,
}

/// Settings, lengths, tiny nodes and nodes that stop, each once.
fn each_once(run: &mut Run) {
    let mut each = |f: Factor| _ = run.one(&f);
    nodes::settings(&mut each);
    nodes::lengths(&mut each);
    nodes::tiny(&mut each);
    nodes::stops(&mut each);
}

/// So many small nodes and so many large ones; some with a sibling.
fn seeded(run: &mut Run, seed: u64, small: usize, large: usize) {
    let mut rng = Rng::new(seed);
    for i in 0..small + large {
        let (f, max_row) = match i.checked_sub(small) {
            None => (nodes::random(&mut rng), nodes::BOUNDS.max_row),
            Some(i) => (random::large(&mut rng, i), 1024),
        };
        if run.one(&f) && rng.once_in(8) {
            run.pair(&f, &nodes::sibling(&mut rng, &f, max_row));
        }
    }
}

fn main() {
    let (words, seed) = Words::read();
    call::notices();
    notices_pairs();
    stops_as_stated();
    tests_as_stated();
    let mut run = Run::default();
    each_once(&mut run);
    seeded(&mut run, seed, words.count(1, 1_000_000), words.count(2, 300));
    run.met.print();
    run.met.hold();
    run.counts.end("compared", "differ")
}

impl Run {
    /// One call, compared. Says whether it passes the entry checks.
    fn one(&mut self, f: &Factor) -> bool {
        let must = must(f);
        let differs = difference(f, &left(f), &must);
        let line = || format!("{}\n    {}", lines::case_text(&Case::Factor(f.clone())), differs.clone().unwrap());
        self.counts.add(differs.is_none(), line);
        self.met.note(f, &must);
        !matches!(number(&must.outcome), 1..=6)
    }

    /// Demand 3. Two calls that pass the entry checks and whose heads are equal have the same answer and the same
    /// head; equal tail rows, in one call or in both, get equal factor rows and marks.
    fn pair(&mut self, f: &Factor, g: &Factor) {
        let (x, y) = (left(f), left(g));
        let mut same = x.outcome == y.outcome;
        if same && x.outcome.is_ok() {
            same = head(f, &x) == head(g, &y) && tails_agree(&[tails(f, &x), tails(g, &y)].concat());
        }
        let text = |f: &Factor| lines::case_text(&Case::Factor(f.clone()));
        self.counts.add(same, || format!("two calls with one head\n    {}\n    {}", text(f), text(g)));
        self.met.pairs += 1;
    }
}

/// The nodes that stop do so with the number and at the place that is stated of them by hand.
fn stops_as_stated() {
    for stop in &telling::STOPS {
        let f = stop.among(0, 0, 0, stop.columns.len(), Mode::Fail, 1);
        match rules::answer(&Case::Factor(f)) {
            Answer::Refused(r) if (r.number, r.a, r.b) == (stop.number, stop.at, 0) => {}
            other => panic!("{}: {other:?}, must be {} at {}", stop.name, stop.number, stop.at),
        }
    }
}

/// The stations have the test numbers that are stated of them by hand, and every wrong reading of them is told.
fn tests_as_stated() {
    test_cases::as_stated().unwrap();
    let told = test_readings::told(&test_cases::calls());
    let untold: Vec<_> = told.iter().filter(|of| of.1 == 0).collect();
    assert!(untold.is_empty(), "no case tells {untold:?}");
}

// ---- what a pair is compared by

fn bits(xs: &[f64]) -> Vec<u64> {
    xs.iter().map(|x| if x.is_nan() { u64::MAX } else { x.to_bits() }).collect()
}

/// Pivots, test numbers, lifts, the order's first places, the head's lower rows.
fn head(f: &Factor, l: &Left) -> Vec<Vec<u64>> {
    let (ncol, b) = (f.settings.ncol, &l.buffers);
    let bytes = |xs: &[u8]| xs.iter().map(|&x| x.into()).collect();
    let order = b.order[..ncol].iter().map(|&i| i as u64).collect();
    let notes = [bytes(&b.tests), bytes(&b.lifted), bits(&b.amounts), order];
    let mut all = [&[bits(&b.d), bits(&b.sub), bytes(&b.blocks)][..], &notes].concat();
    all.extend((0..ncol).map(|i| bits(&nodes::row(f, &b.panel, i)[..=i])));
    all
}

/// Each tail row: as given, its factor row, its mark.
fn tails(f: &Factor, l: &Left) -> Vec<(Vec<u64>, Vec<u64>, u8)> {
    let of = |i: usize| {
        let mark = l.buffers.marks[i - f.settings.ncol];
        (bits(&nodes::row(f, &f.panel, i)), bits(&nodes::row(f, &l.buffers.panel, i)), mark)
    };
    (f.settings.ncol..f.settings.nrow).map(of).collect()
}

fn tails_agree(all: &[(Vec<u64>, Vec<u64>, u8)]) -> bool {
    all.iter().all(|p| all.iter().all(|q| p.0 != q.0 || (p.1 == q.1 && p.2 == q.2)))
}

/// A head with another test number is noticed, and a tail row with another factor row or mark than its equal.
fn notices_pairs() {
    let settings = Settings { ncol: 1, nrow: 2, nb: 1, mode: Mode::Fail, limit: 1 };
    let f = Factor { settings, panel: vec![4.0, 6.0], lengths: None };
    let (right, mut wrong) = (must(&f), must(&f));
    wrong.buffers.tests[0] ^= 1;
    assert!(right.outcome.is_ok() && head(&f, &right) != head(&f, &wrong));
    let row = |l: u64, mark: u8| (vec![1], vec![l], mark);
    assert!(tails_agree(&[row(2, 0), row(2, 0)]));
    assert!(!tails_agree(&[row(2, 0), row(3, 0)]) && !tails_agree(&[row(2, 0), row(2, 1)]));
}
