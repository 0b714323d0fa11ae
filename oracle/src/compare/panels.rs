//! A call that adds to a node's panel, an assembly or an update: what it must answer and leave, and where an answer
//! differs from that. The inertia call too, which leaves nothing.

use crate::call::{counted, counts_beside, flip, refusals_beside, refused};
use oracle::case::*;
use oracle::random;
use oracle::rules;

/// What a call answers: the counts of an inertia call; the others count nothing.
type Outcome = Result<misuktaan::Inertia, misuktaan::Refusal>;

/// What a call answered, and the panel as it left it.
#[derive(Clone, Debug)]
pub struct Left {
    pub outcome: Outcome,
    pub panel: Vec<f64>,
}

/// The panel that a call is lent to write; an inertia call has none.
fn lent(case: &Case) -> &[f64] {
    match case {
        Case::Assembly(a) => &a.panel,
        Case::Update(u) => &u.panel,
        Case::Inertia(_) => &[],
        _ => unreachable!("no call on a panel"),
    }
}

/// What a call answers and leaves.
pub fn left(case: &Case) -> Left {
    let mut panel = lent(case).to_vec();
    let outcome = match case {
        Case::Assembly(a) => assemble(a, &mut panel),
        Case::Update(u) => update(u, &mut panel),
        Case::Inertia(i) => misuktaan::inertia(&i.d, &i.sub, &i.blocks),
        _ => unreachable!("no call on a panel"),
    };
    Left { outcome, panel }
}

fn assemble(a: &Assembly, panel: &mut [f64]) -> Outcome {
    let entries = misuktaan::Entries { rows: &a.rows, cols: &a.cols, numbers: &a.numbers };
    misuktaan::assemble(a.ncol, a.nrow, &entries, panel).map(|()| counted([0; 3]))
}

fn update(u: &Update, panel: &mut [f64]) -> Outcome {
    let Update { ncol, nrow, place, descendant: k, .. } = u;
    let target = misuktaan::Target { ncol: *ncol, nrow: *nrow, first: place.first, rows: &place.rows };
    let descendant = misuktaan::Descendant {
        nk: k.ncol,
        mk: k.below,
        panel: &k.panel,
        d: &k.d,
        sub: &k.sub,
        blocks: &k.blocks,
        rows: &k.rows,
    };
    misuktaan::update(&target, panel, &descendant).map(|()| counted([0; 3]))
}

/// What a call must answer and leave, by the reference and the rules of docs/SCOPE.md.
pub fn must(case: &Case) -> Left {
    let kept = lent(case).to_vec();
    match rules::answer(case) {
        Answer::Refused(refusal) => Left { outcome: Err(refused(refusal)), panel: kept },
        Answer::Panel(panel) => Left { outcome: Ok(counted([0; 3])), panel },
        Answer::Counts(counts) => Left { outcome: Ok(counted(counts)), panel: kept },
        other => panic!("no answer of a call on a panel: {other:?}"),
    }
}

/// Which cells of the panel an accepted call writes: the entries' places; of an update the rows from each landing row
/// on, in that row's column.
fn written(case: &Case) -> Vec<bool> {
    let mut cells = vec![false; lent(case).len()];
    match case {
        Case::Assembly(a) => (0..a.rows.len()).for_each(|e| cells[a.rows[e] + a.cols[e] * a.nrow] = true),
        Case::Update(u) if u.descendant.ncol > 0 => {
            let local = |g: &u32| u.place.rows.iter().position(|r| r == g);
            let rows: Vec<Option<usize>> = u.descendant.rows.iter().map(local).collect();
            for (c, landing) in rows.iter().enumerate() {
                if let Some(j) = landing.filter(|&j| j < u.ncol) {
                    rows[c..].iter().for_each(|i| cells[i.unwrap() + j * u.nrow] = true);
                }
            }
        }
        _ => {}
    }
    cells
}

/// The first cell in which a call differs from what it must leave. Cells that it writes are worked out, and all
/// not-a-numbers count as one there; every other cell is held to its bits.
pub fn difference(case: &Case, got: &Left, must: &Left) -> Option<String> {
    if got.outcome != must.outcome {
        return Some(format!("{:?}, must be {:?}", got.outcome, must.outcome));
    }
    let (kept, accepted) = (lent(case), must.outcome.is_ok());
    let written = if accepted { written(case) } else { vec![false; kept.len()] };
    for (at, (x, y)) in got.panel.iter().zip(&must.panel).enumerate() {
        assert!(written[at] || y.to_bits() == kept[at].to_bits(), "the reference writes elsewhere");
        if x.to_bits() != y.to_bits() && !(written[at] && x.is_nan() && y.is_nan()) {
            return Some(format!("panel[{at}] is {:016X}, must be {:016X}", x.to_bits(), y.to_bits()));
        }
    }
    None
}

/// Every cell that a call is lent to read, by its bits.
pub fn read(case: &Case) -> Vec<u64> {
    let numbers = |xs: &[f64]| xs.iter().map(|x| x.to_bits()).collect::<Vec<_>>();
    let rows = |xs: &[u32]| xs.iter().map(|&g| g.into()).collect::<Vec<_>>();
    let bytes = |xs: &[u8]| xs.iter().map(|&b| b.into()).collect::<Vec<_>>();
    let places = |xs: &[usize]| xs.iter().map(|&i| i as u64).collect::<Vec<_>>();
    match case {
        Case::Assembly(a) => [places(&a.rows), places(&a.cols), numbers(&a.numbers)].concat(),
        Case::Update(Update { place, descendant: k, .. }) => {
            let (panel, d, sub) = (numbers(&k.panel), numbers(&k.d), numbers(&k.sub));
            [rows(&place.rows), rows(&k.rows), panel, d, sub, bytes(&k.blocks)].concat()
        }
        Case::Inertia(i) => [numbers(&i.d), numbers(&i.sub), bytes(&i.blocks)].concat(),
        _ => unreachable!("no call on a panel"),
    }
}

// ---- the comparison itself

/// A wrong cell of the panel, written or not, and a wrong number in the answer are noticed.
pub fn notices() {
    // row 0 of column 1 is an upper position, row 2 of column 0 is not written by the update
    let panel = vec![2.0, 1.0, 3.0, random::payload(6), 5.0, 7.0];
    let k = Descendant {
        ncol: 1,
        below: 2,
        rows: vec![5, 6],
        panel: vec![1.0, 0.5, 0.25],
        d: vec![2.0],
        sub: vec![0.0],
        blocks: vec![0],
    };
    let place = Place { first: 5, rows: vec![5, 6, 9] };
    let update = Update { ncol: 2, nrow: 3, place, panel: panel.clone(), descendant: k };
    let absent = Update { descendant: Descendant { rows: vec![5, 7], ..update.descendant.clone() }, ..update.clone() };
    let (rows, cols, numbers) = (vec![1, 2], vec![0, 1], vec![1.0, 2.0]);
    let assembly = Assembly { ncol: 2, nrow: 3, panel, rows, cols, numbers };
    let outside = Assembly { rows: vec![1, 0], ..assembly.clone() };
    let inertia = Inertia { d: vec![1.0], sub: vec![0.0], blocks: vec![0] };
    let cases = [Case::Assembly(assembly), Case::Assembly(outside), Case::Update(update), Case::Update(absent)];
    for case in cases.into_iter().chain([Case::Inertia(inertia)]) {
        notices_in(&case);
    }
}

fn notices_in(case: &Case) {
    let right = must(case);
    assert_eq!(difference(case, &right, &right), None);
    let noticed = |got: Left| assert!(difference(case, &got, &right).is_some(), "a wrong answer passes: {got:?}");
    let beside: Vec<Outcome> = match right.outcome {
        Err(refusal) => refusals_beside(refusal).map(Err).into_iter().chain([Ok(counted([0; 3]))]).collect(),
        Ok(counts) => counts_beside(counts).map(Ok).into_iter().chain([Err(ABSENT)]).collect(),
    };
    beside.into_iter().for_each(|outcome| noticed(Left { outcome, ..right.clone() }));
    for at in 0..right.panel.len() {
        let mut got = right.clone();
        flip(&mut got.panel[at]);
        noticed(got);
    }
}

const ABSENT: misuktaan::Refusal = misuktaan::Refusal { number: 17, a: 0, b: 0 };
