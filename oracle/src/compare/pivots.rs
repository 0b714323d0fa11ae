//! The library's calls to LAPACK and from it beside the text of docs/SCOPE.md, "LAPACK's pivot lists", which
//! oracle/src/pivots.rs restates: the answer, its place and every cell of every buffer; and forth and back, and back
//! and forth. The orders and block bytes are any, or those that the library's factor call leaves.

mod call;
mod counts;
mod lists;
mod pivot_calls;
mod pivot_edges;

use counts::{Counts, Words};
use oracle::case::*;
use oracle::random::{self, Bounds, Rng};
use oracle::{lines, pivot_cases, pivot_readings, rules};
use pivot_calls::{difference, left, must, Left};
use std::collections::BTreeMap;

// The parts of a run: the seeded calls are sound or have something wrong.
const EACH_ONCE: &str = "each once";
const SOUND: &str = "seeded, sound";
const SPOILED: &str = "seeded, spoiled";
const SMALL: &str = "small nodes";
const LARGE: &str = "large nodes";

/// What a part's calls met and how often, so that a reader sees what a run has tried.
type Met = BTreeMap<[String; 3], u64>;

/// What each part that is asked for must have met, whatever the seed.
const WANTED: [(&str, &str, &str); 13] = [
    (EACH_ONCE, "to LAPACK", "with blocks/with an exchange/with a block's first row from elsewhere"),
    (EACH_ONCE, "to LAPACK", "refused 1/refused 25/refused 26/refused 16/refused 28"),
    (EACH_ONCE, "from LAPACK", "with blocks/with an exchange/with a block's first row from elsewhere"),
    (EACH_ONCE, "from LAPACK", "refused 1/refused 25/refused 30/refused 29"),
    (SOUND, "to LAPACK", "with blocks/with an exchange/with a block's first row from elsewhere"),
    (SOUND, "to LAPACK", "with more than 64 columns/refused 28"),
    (SOUND, "from LAPACK", "with blocks/with an exchange/with a block's first row from elsewhere"),
    (SOUND, "from LAPACK", "with more than 64 columns"),
    (SPOILED, "to LAPACK", "accepted/refused 1/refused 25/refused 26/refused 16/refused 28"),
    (SPOILED, "from LAPACK", "accepted/refused 1/refused 25/refused 30/refused 29"),
    (SMALL, "to LAPACK", "with blocks/with an exchange/with a block's first row from elsewhere"),
    (SMALL, "factor", "refused/in Fail/in Lift/in several panels/with tail rows"),
    (LARGE, "factor", "accepted/in several panels/with tail rows"),
];

/// The bounds of the small nodes.
const BOUNDS: Bounds = Bounds { max_col: 12, max_row: 16 };

#[derive(Default)]
struct Run {
    counts: Counts,
    part: &'static str,
    met: Met,
}

impl Run {
    /// One call, compared. What it accepts the other call turns back. The answer's number.
    fn one(&mut self, case: &Case) -> usize {
        let (got, must) = (left(case), must(case));
        let differs = difference(&got, &must);
        self.counts.add(differs.is_none(), || format!("{}\n    {}", lines::case_text(case), differs.clone().unwrap()));
        self.note(case, &must);
        if got.outcome.is_ok() {
            self.back(case, &got);
        }
        call::number(&got.outcome)
    }

    fn met(&mut self, call: &str, what: &[(bool, &str)]) {
        for (_, what) in what.iter().filter(|what| what.0) {
            *self.met.entry([self.part, call, what].map(String::from)).or_default() += 1;
        }
    }

    fn note(&mut self, case: &Case, must: &Left) {
        let call = if matches!(case, Case::ToLapack(_)) { "to LAPACK" } else { "from LAPACK" };
        match must.outcome {
            Err(refusal) => self.met(call, &[(true, &format!("refused {}", refusal.number))]),
            Ok(()) => {
                let Left { order, blocks, .. } = must;
                let elsewhere = (0..blocks.len()).any(|k| blocks[k] == 1 && order[k] != k);
                let met = [
                    (true, "accepted"),
                    (blocks.contains(&1), "with blocks"),
                    (!order.is_sorted(), "with an exchange"),
                    (elsewhere, "with a block's first row from elsewhere"),
                    (order.len() > 64, "with more than 64 columns"),
                ];
                self.met(call, &met);
            }
        }
    }

    /// Prints what was met; what was not, in a part that was asked for, counts as a difference.
    fn print(&mut self, asked: &[(&str, usize)]) {
        let Run { counts, met, .. } = self;
        met.iter().for_each(|(name, n)| println!("{n:9} {}", name.join(", ")));
        for (part, call, all) in WANTED.into_iter().filter(|of| !asked.contains(&(of.0, 0))) {
            for name in all.split('/').map(|what| [part, call, what].map(String::from)) {
                if !met.contains_key(&name) {
                    counts.add(false, || format!("none is {}", name.join(", ")));
                }
            }
        }
    }

    /// The other call on what an accepted one left: it accepts, and leaves what the first was given.
    fn back(&mut self, case: &Case, got: &Left) {
        let other = match case {
            Case::ToLapack(_) => Case::FromLapack(pivot_cases::from(&got.list)),
            _ => Case::ToLapack(pivot_cases::to(&got.order, &got.blocks)),
        };
        let differs = difference(&left(&other), got);
        self.counts.add(differs.is_none(), || {
            format!("{}\n    and back: {}", lines::case_text(case), differs.clone().unwrap())
        });
    }

    /// A factor call, compared; what it leaves of the head, if it is accepted, has a list.
    fn node(&mut self, f: &Factor) {
        let (s, got) = (&f.settings, call::left(f));
        let differs = call::difference(f, &got, &call::must(f));
        let line = || format!("{}\n    {}", lines::case_text(&Case::Factor(f.clone())), differs.clone().unwrap());
        self.counts.add(differs.is_none(), line);
        let accepted = got.outcome.is_ok();
        let met = [
            (!accepted, "refused"),
            (accepted, "accepted"),
            (accepted && s.mode.floor().is_none(), "in Fail"),
            (accepted && s.mode.floor().is_some(), "in Lift"),
            (accepted && s.nb < s.ncol, "in several panels"),
            (accepted && s.nrow > s.ncol, "with tail rows"),
        ];
        self.met("factor", &met);
        if accepted {
            let case = Case::ToLapack(pivot_cases::to(&got.buffers.order[..s.ncol], &got.buffers.blocks));
            let number = self.one(&case);
            self.counts.add(number == 0, || format!("{}\n    {number}", lines::case_text(&case)));
        }
    }
}

/// So many calls of either kind, one in 16 of more than 64 columns, and one in three with something wrong.
fn seeded(run: &mut Run, rng: &mut Rng, count: usize) {
    for i in 0..count {
        let n = if i % 16 == 0 { rng.within(65, 128) } else { rng.within(0, 12) };
        let (mut to, mut from) = (random::to_list(rng, n), random::from_list(rng, n));
        run.part = if rng.once_in(3) { SPOILED } else { SOUND };
        if run.part == SPOILED {
            random::spoil_to_list(rng, &mut to);
            random::spoil_from_list(rng, &mut from);
        }
        run.one(&Case::ToLapack(to));
        run.one(&Case::FromLapack(from));
    }
}

/// So many small nodes and so many large ones, in both modes and with panels of any width.
fn nodes(run: &mut Run, rng: &mut Rng, small: usize, large: usize) {
    run.part = SMALL;
    for _ in 0..small {
        if let Some(Case::Factor(f)) = random::case(rng, "factor", BOUNDS) {
            run.node(&f);
        }
    }
    run.part = LARGE;
    (0..large).for_each(|i| run.node(&random::large(rng, i)));
}

fn main() {
    let (words, seed) = Words::read();
    call::notices();
    pivot_calls::notices();
    stations_as_stated();
    readings_told();
    let (mut run, mut rng) = (Run::default(), Rng::new(seed));
    run.part = EACH_ONCE;
    pivot_edges::each_once(&mut |case| _ = run.one(&case));
    let (calls, small, large) = (words.count(1, 500_000), words.count(2, 200_000), words.count(3, 100));
    seeded(&mut run, &mut rng, calls);
    nodes(&mut run, &mut rng, small, large);
    run.print(&[(SOUND, calls), (SPOILED, calls), (SMALL, small), (LARGE, large)]);
    run.counts.end("compared", "differ")
}

/// The stations have the answers that were worked out by hand.
fn stations_as_stated() {
    for pivot_cases::Station { name, case, answer } in pivot_cases::stations() {
        let (stated, got) = (lines::answer_text(&answer), lines::answer_text(&rules::answer(&case)));
        assert_eq!(got, stated, "{name}");
    }
}

/// Every wrong reading is told by a case that is compared here.
fn readings_told() {
    let cases: Vec<_> = pivot_cases::telling().into_iter().map(|(_, case)| case).collect();
    let untold: Vec<_> = pivot_readings::told(&cases).into_iter().filter(|of| of.1 == 0).collect();
    assert!(untold.is_empty(), "no case tells {untold:?}");
}
