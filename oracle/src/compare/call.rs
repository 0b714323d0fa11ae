//! A factor call: what it is lent, what it must answer and leave, and where an
//! answer differs from that.

use misuktaan::{Factors, Report};
use oracle::case::*;
use oracle::rules;

/// What a call answers.
pub type Outcome = Result<Report, misuktaan::Refusal>;

/// A refusal as it is answered.
pub fn refused(Refusal { number, a, b }: Refusal) -> misuktaan::Refusal {
    misuktaan::Refusal { number, a, b }
}

/// Counts as they are answered.
pub fn counted([positive, negative, zero]: [usize; 3]) -> misuktaan::Inertia {
    misuktaan::Inertia { positive, negative, zero }
}

/// The answer's number; 0 is acceptance.
pub fn number<T>(outcome: &Result<T, misuktaan::Refusal>) -> usize {
    outcome.as_ref().map_or_else(|refusal| refusal.number, |_| 0)
}

// ---- the buffers

/// Every cell of a kind alike.
fn filled(lengths: &[usize], x: f64, byte: u8, place: usize) -> Factors {
    Factors {
        panel: vec![x; lengths[0]],
        d: vec![x; lengths[1]],
        sub: vec![x; lengths[2]],
        blocks: vec![byte; lengths[3]],
        lifted: vec![byte; lengths[4]],
        amounts: vec![x; lengths[5]],
        tests: vec![byte; lengths[6]],
        order: vec![place; lengths[7]],
        marks: vec![byte; lengths[8]],
        work: vec![x; lengths[9]],
    }
}

fn lengths(f: &Factor) -> Vec<usize> {
    f.lengths.clone().unwrap_or_else(|| stated_lengths(&f.settings))
}

/// The buffers that a call is lent. They hold what no call writes: a
/// signalling not-a-number, a byte above 1, a place that no row has.
fn lent(f: &Factor) -> Factors {
    filled(&lengths(f), f64::from_bits(0x7FF4_5AFE_0000_0001), 0xA5, usize::MAX)
}

/// Every cell by its bits, buffer by buffer.
fn cells(of: &Factors) -> [Vec<u64>; BUFFERS.len()] {
    let numbers = |xs: &[f64]| xs.iter().map(|x| x.to_bits()).collect();
    let bytes = |xs: &[u8]| xs.iter().map(|&b| b.into()).collect();
    let order = of.order.iter().map(|&i| i as u64).collect();
    let (panel, d, sub) = (numbers(&of.panel), numbers(&of.d), numbers(&of.sub));
    let (blocks, lifted, tests, marks) = (bytes(&of.blocks), bytes(&of.lifted), bytes(&of.tests), bytes(&of.marks));
    [panel, d, sub, blocks, lifted, numbers(&of.amounts), tests, order, marks, numbers(&of.work)]
}

// ---- the call

/// What a call answered and left.
#[derive(Clone, Debug)]
pub struct Left {
    pub outcome: Outcome,
    pub buffers: Factors,
}

/// What the library's call answers and leaves.
pub fn left(f: &Factor) -> Left {
    let Settings { ncol, nrow, nb, mode, limit } = f.settings;
    let mode = mode.floor().map_or(misuktaan::Mode::Fail, misuktaan::Mode::Lift);
    let mut buffers = lent(f);
    let outcome = misuktaan::factor(&misuktaan::Settings { ncol, nrow, nb, mode, limit }, &f.panel, buffers.lend());
    Left { outcome, buffers }
}

/// What a call must answer and leave, by the reference and the rules of docs/SCOPE.md.
pub fn must(f: &Factor) -> Left {
    answered(f, rules::answer(&Case::Factor(f.clone())))
}

/// What a call leaves that answers so.
pub fn answered(f: &Factor, answer: Answer) -> Left {
    let bytes = |flags: Vec<bool>| flags.into_iter().map(u8::from).collect();
    match answer {
        Answer::Refused(refusal) => {
            let buffers = if refusal.of_the_run() { filled(&lengths(f), 0.0, 0, 0) } else { lent(f) };
            Left { outcome: Err(refused(refusal)), buffers }
        }
        Answer::Accepted { rounds, factored: of, marks } => {
            let buffers = Factors {
                panel: of.panel,
                d: of.d,
                sub: of.sub,
                blocks: bytes(of.blocks),
                lifted: bytes(of.lifts),
                amounts: of.amounts,
                tests: of.tests,
                order: of.order,
                marks: bytes(marks),
                work: vec![0.0; lengths(f)[9]],
            };
            Left { outcome: Ok(Report { rounds, inertia: counted(of.inertia) }), buffers }
        }
        other => panic!("no answer of a factor call: {other:?}"),
    }
}

/// Whether the panel's cell `at` is worked out by an accepted call. Of the
/// worked-out numbers all not-a-numbers count as one; every other cell is held
/// to its bits, the panel's upper positions to those of the input.
fn worked_out(s: &Settings, at: usize) -> bool {
    at % s.nrow >= at / s.nrow
}

/// The first cell of each buffer in which two calls on one input differ.
pub fn difference(f: &Factor, got: &Left, must: &Left) -> Option<String> {
    let (s, accepted) = (&f.settings, must.outcome.is_ok());
    if got.outcome != must.outcome {
        return Some(format!("{:?}, must be {:?}", got.outcome, must.outcome));
    }
    let is_nan = |bits: u64| f64::from_bits(bits).is_nan();
    let (got, must) = (cells(&got.buffers), cells(&must.buffers));
    for (which, name) in BUFFERS.iter().enumerate() {
        let alike = |at: usize| {
            let (x, y) = (got[which][at], must[which][at]);
            x == y || (accepted && *name == "panel" && worked_out(s, at) && is_nan(x) && is_nan(y))
        };
        assert_eq!(got[which].len(), must[which].len());
        if let Some(at) = (0..must[which].len()).find(|&at| !alike(at)) {
            return Some(format!("{name}[{at}] is {:016X}, must be {:016X}", got[which][at], must[which][at]));
        }
    }
    None
}

// ---- the comparison itself

/// The refusals beside one: each of its numbers one greater.
pub fn refusals_beside(r: misuktaan::Refusal) -> [misuktaan::Refusal; 3] {
    let beside = [(r.number + 1, r.a, r.b), (r.number, r.a + 1, r.b), (r.number, r.a, r.b + 1)];
    beside.map(|(number, a, b)| misuktaan::Refusal { number, a, b })
}

/// The counts beside some: each one greater.
pub fn counts_beside(i: misuktaan::Inertia) -> [misuktaan::Inertia; 3] {
    let (positive, negative, zero) = (i.positive, i.negative, i.zero);
    [[positive + 1, negative, zero], [positive, negative + 1, zero], [positive, negative, zero + 1]].map(counted)
}

/// The answers beside one: the other verdict too.
fn beside(outcome: Outcome) -> Vec<Outcome> {
    match outcome {
        Err(refusal) => {
            let none = Report { rounds: 0, inertia: counted([0; 3]) };
            refusals_beside(refusal).map(Err).into_iter().chain([Ok(none)]).collect()
        }
        Ok(Report { rounds, inertia }) => {
            let counts = counts_beside(inertia).map(|inertia| Ok(Report { rounds, inertia }));
            let zero_pivot = refused(Refusal { number: 7, a: 0, b: 0 });
            counts.into_iter().chain([Ok(Report { rounds: rounds + 1, inertia }), Err(zero_pivot)]).collect()
        }
    }
}

/// A wrong cell in any one buffer, or a wrong number in the answer, is noticed.
pub fn notices() {
    let panel = vec![2.0, 1.0, 3.0, f64::NAN, 5.0, 7.0];
    let settings = Settings { ncol: 2, nrow: 3, nb: 2, mode: Mode::Fail, limit: 1 };
    let accepted = Factor { settings, panel, lengths: None };
    let zero = Factor { panel: vec![0.0; 6], ..accepted.clone() };
    let refused = Factor { settings: Settings { nb: 65, ..settings }, ..accepted.clone() };
    let wrong: [fn(&mut Factors); 12] = [
        |b| flip(&mut b.panel[2]),
        // the upper position
        |b| flip(&mut b.panel[3]),
        |b| flip(&mut b.d[1]),
        |b| flip(&mut b.sub[1]),
        |b| b.blocks[1] ^= 1,
        |b| b.lifted[1] ^= 1,
        |b| flip(&mut b.amounts[1]),
        |b| b.tests[0] ^= 1,
        |b| b.tests[1] ^= 4,
        |b| b.order[2] ^= 1,
        |b| b.marks[0] ^= 1,
        |b| flip(&mut b.work[7]),
    ];
    for f in [accepted, zero, refused] {
        let right = must(&f);
        assert_eq!(difference(&f, &right, &right), None);
        let noticed = |got: Left| assert!(difference(&f, &got, &right).is_some(), "a wrong answer passes: {got:?}");
        for spoil in wrong {
            let mut got = right.clone();
            spoil(&mut got.buffers);
            noticed(got);
        }
        beside(right.outcome).into_iter().for_each(|outcome| noticed(Left { outcome, ..right.clone() }));
    }
}

/// The last bit of a number, the other way.
pub fn flip(x: &mut f64) {
    *x = f64::from_bits(x.to_bits() ^ 1);
}
