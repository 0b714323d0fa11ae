//! The way of a node before and through its factor call beside the reference's `ll_factor_node`: assemblies, updates
//! and inertia calls one by one, then nodes worked whole, from their entries over their descendants to their factor.

mod call;
mod counts;
mod edges;
mod lists;
mod panels;
mod targets;

use counts::{Counts, Words};
use oracle::case::*;
use oracle::random::{self, Rng};
use oracle::{lines, rules};
use targets::Pool;

/// What the compared calls met, so that a reader sees what a run has tried.
#[derive(Default)]
struct Met {
    assemblies: u64,
    updates: u64,
    /// Updates that wrote something, had a block, were a factored node's.
    landed: u64,
    blocks: u64,
    factored: u64,
    inertias: u64,
    /// By the answer's number, of all these.
    answers: [u64; 20],
    /// Nodes worked whole, with more descendants than one, accepted.
    nodes: u64,
    several: u64,
    accepted: u64,
}

impl Met {
    fn note(&mut self, case: &Case, left: &panels::Left) {
        self.answers[call::number(&left.outcome)] += 1;
        match case {
            Case::Assembly(_) => self.assemblies += 1,
            Case::Inertia(_) => self.inertias += 1,
            Case::Update(u) => {
                let lands = u.descendant.rows.iter().any(|g| u.place.rows.iter().take(u.ncol).any(|r| r == g));
                let accepted = left.outcome.is_ok();
                self.updates += 1;
                self.landed += u64::from(accepted && lands && u.descendant.ncol > 0);
                self.blocks += u64::from(accepted && lands && u.descendant.blocks.contains(&1));
            }
            _ => unreachable!(),
        }
    }

    fn print(&self) {
        let Met { assemblies, updates, landed, blocks, factored, inertias, answers, nodes, several, accepted } = self;
        println!("{assemblies} assemblies, {updates} updates, {inertias} inertia calls");
        println!("of the updates: written {landed}, with blocks {blocks}, of factored nodes {factored}");
        println!("of all these: accepted {}, refused 10 to 19: {:?}", answers[0], &answers[10..]);
        println!("{nodes} nodes worked whole: with several descendants {several}, accepted {accepted}");
    }
}

#[derive(Default)]
struct Run {
    counts: Counts,
    met: Met,
    pool: Pool,
}

/// So many single calls; beside each fourth a node is factored, to be a descendant.
fn singles(run: &mut Run, rng: &mut Rng, count: usize) {
    for i in 0..count {
        if i % 4 == 0 {
            let Some(Case::Factor(f)) = random::case(rng, "factor", targets::BOUNDS) else { unreachable!() };
            run.factor(rng, &f, call::must(&f));
        }
        let case = targets::single(rng, &run.pool);
        run.one(&case);
    }
}

/// So many nodes worked whole, then so many large ones.
fn nodes(run: &mut Run, rng: &mut Rng, small: usize, large: usize) {
    for i in 0..small + large {
        let w = match i.checked_sub(small) {
            None => targets::whole(rng, &run.pool),
            Some(i) => targets::large(rng, i),
        };
        run.whole(rng, &w);
    }
}

fn main() {
    let (words, seed) = Words::read();
    call::notices();
    panels::notices();
    let (mut run, mut rng) = (Run::default(), Rng::new(seed));
    edges::all(&mut |case| _ = run.one(&case));
    singles(&mut run, &mut rng, words.count(1, 600_000));
    nodes(&mut run, &mut rng, words.count(2, 150_000), words.count(3, 40));
    run.met.print();
    run.counts.end("compared", "differ")
}

impl Run {
    /// One call on a panel, compared; what it left.
    fn one(&mut self, case: &Case) -> panels::Left {
        let (must, read) = (panels::must(case), panels::read(case));
        let got = panels::left(case);
        let mut differs = panels::difference(case, &got, &must);
        if read != panels::read(case) {
            differs = Some("a list that is lent to be read was written".into());
        }
        self.counts.add(differs.is_none(), || format!("{}\n    {}", lines::case_text(case), differs.unwrap()));
        self.met.note(case, &must);
        got
    }

    /// A factor call, compared; what it emits, compared and kept.
    fn factor(&mut self, rng: &mut Rng, f: &Factor, must: call::Left) {
        let got = call::left(f);
        let differs = call::difference(f, &got, &must);
        let line = || format!("{}\n    {}", lines::case_text(&Case::Factor(f.clone())), differs.clone().unwrap());
        self.counts.add(differs.is_none(), line);
        if let (Ok(_), Ok(report)) = (got.outcome, must.outcome) {
            self.pivots(&got, report.inertia);
            self.emitted(rng, f, &got);
        }
    }

    /// The inertia of factored pivots beside the reference's counts.
    fn pivots(&mut self, left: &call::Left, must: misuktaan::Inertia) {
        let b = &left.buffers;
        let got = misuktaan::inertia(&b.d, &b.sub, &b.blocks);
        let line = || {
            let pivots = Inertia { d: b.d.clone(), sub: b.sub.clone(), blocks: b.blocks.clone() };
            format!("{}\n    {got:?}, must be {must:?}", lines::case_text(&Case::Inertia(pivots)))
        };
        self.counts.add(got == Ok(must), line);
        self.met.inertias += 1;
        self.met.answers[0] += 1;
    }

    /// What a factor call emits an update accepts: 18 where a tail row is marked, nothing else.
    fn emitted(&mut self, rng: &mut Rng, f: &Factor, left: &call::Left) {
        let emitted = targets::emitted(f, left);
        let case = Case::Update(targets::update(rng, &emitted));
        let got = call::number(&self.one(&case).outcome);
        let must = if left.buffers.marks.contains(&1) { 18 } else { 0 };
        self.counts.add(got == must, || format!("{}\n    {got}, must be {must}", lines::case_text(&case)));
        self.met.factored += 1;
        self.pool.add(rng, emitted);
    }

    /// A node worked whole: each call compared, then the factor call with the reference's whole node. A refusal on
    /// the way is the whole node's.
    fn whole(&mut self, rng: &mut Rng, w: &Whole) {
        let answer = rules::answer(&Case::Whole(w.clone()));
        let mut left = self.one(&Case::Assembly(w.assembly.clone()));
        for k in &w.descendants {
            if left.outcome.is_ok() {
                left = self.one(&Case::Update(Update {
                    ncol: w.settings.ncol,
                    nrow: w.settings.nrow,
                    place: w.place.clone(),
                    panel: left.panel,
                    descendant: k.clone(),
                }));
            }
        }
        if left.outcome.is_ok() {
            let f = Factor { settings: w.settings, panel: left.panel, lengths: None };
            self.met.accepted += u64::from(matches!(answer, Answer::Accepted { .. }));
            self.factor(rng, &f, call::answered(&f, answer));
        } else {
            let same = matches!(answer, Answer::Refused(r) if Err(call::refused(r)) == left.outcome);
            self.counts.add(same, || format!("{}: {:?}", lines::case_text(&Case::Whole(w.clone())), left.outcome));
        }
        self.met.nodes += 1;
        self.met.several += u64::from(w.descendants.len() > 1);
    }
}
