//! What docs/SCOPE.md adds to the reference, restated apart from the port: the
//! refusals that the Rust does not know, the rounds, the marks; solve, the pivot
//! lists and the test numbers are in files of their own. `answer` asks the Rust for
//! everything else.

use crate::case::*;
use crate::elimination::Node;
use crate::{magnitude, pivots, solve, test_numbers};
use rslab::reach::{self, Factored, Ran, Step, Stop};

pub const MAX_COL: usize = 128;
const MAX_ROW: usize = 1024;
const MAX_NB: usize = 64;
const MAX_LIMIT: usize = 64;

const GROWTH_EPS: f64 = 1e-14;

pub type Checked = Result<(), Refusal>;

pub fn refuse_if(wrong: bool, number: usize) -> Checked {
    refuse_at(wrong.then_some(0), number)
}

/// A refusal at a place, if there is one.
pub fn refuse_at(place: Option<usize>, number: usize) -> Checked {
    place.map_or(Ok(()), |a| Err(Refusal { number, a, b: 0 }))
}

/// The answer of a call: the Rust's, with the refusals of docs/REFUSALS.md.
pub fn answer(case: &Case) -> Answer {
    let answered = match case {
        Case::Factor(f) => factor(f),
        Case::Assembly(a) => assembled(a).map(Answer::Panel),
        Case::Update(u) => updated(u).map(Answer::Panel),
        Case::Whole(w) => whole(w),
        Case::Inertia(i) => inertia(i).map(Answer::Counts),
        Case::Solve(s) => solve::AS_WRITTEN.answer(s).map(Answer::Vector),
        Case::ToLapack(c) => pivots::TO.answer(c).map(Answer::List),
        Case::FromLapack(c) => pivots::FROM.answer(c).map(|(order, blocks)| Answer::Pivots { order, blocks }),
        Case::Leaf(l) => Ok(Answer::Number(reach::leaf(&l.name, l.a, l.b).expect("no such leaf"))),
        Case::Magnitude(bits) => Ok(Answer::Bits(magnitude::magnitude(*bits))),
    };
    answered.unwrap_or_else(Answer::Refused)
}

// ---- the factor call

fn factor(f: &Factor) -> Result<Answer, Refusal> {
    let s = &f.settings;
    entry(f)?;
    judge(f, reach::factor(s.ncol, s.nrow, s.nb, s.mode.floor(), &f.panel))
}

pub fn bad_shape(ncol: usize, nrow: usize) -> bool {
    ncol > MAX_COL || nrow > MAX_ROW || nrow < ncol
}

/// Refusals 1 to 6.
fn entry(f: &Factor) -> Checked {
    let s = &f.settings;
    refuse_if(bad_shape(s.ncol, s.nrow), 1)?;
    refuse_if(s.nb == 0 || s.nb > MAX_NB, 2)?;
    let stated = stated_lengths(s);
    refuse_if(f.panel.len() != s.nrow * s.ncol || f.lengths.as_ref().is_some_and(|given| *given != stated), 3)?;
    if let Mode::Lift(floor) = s.mode {
        refuse_if(!floor.is_finite() || floor <= 0.0, 4)?;
        refuse_if(s.limit == 0 || s.limit > MAX_LIMIT, 5)?;
    }
    for a in 0..s.ncol {
        if let Some(b) = (a..s.nrow).find(|b| !f.panel[b + a * s.nrow].is_finite()) {
            return Err(Refusal { number: 6, a, b });
        }
    }
    Ok(())
}

/// Refusals 7 to 9, 23, 24 and acceptance, from a run of the Rust on this call.
fn judge(f: &Factor, ran: Ran) -> Result<Answer, Refusal> {
    let s = &f.settings;
    match ran {
        Ran::Stopped { at, on, panel, steps } => {
            assert!(s.mode.floor().is_none(), "a run with lifts stopped");
            assert_eq!(stopped_on(s, &panel, at), Some(on), "the tests and the trace differ");
            assert_eq!(numbered(f, &steps, at).0.last(), Some(&stop_test(on)), "it stops on another test");
            Err(Refusal { number: stop_number(on), a: at, b: 0 })
        }
        Ran::Unended { at, rounds, steps } => {
            numbered(f, &steps, at);
            Err(Refusal { number: 8, a: beyond(s.limit, &rounds).unwrap_or(at), b: 0 })
        }
        Ran::Ended(of) => {
            let rounds = s.mode.floor().map_or(Vec::new(), |floor| replayed(s, floor, &of));
            assert_eq!(rounds, of.rounds, "the replay and the trace differ");
            assert_eq!(counts(&of.d, &of.sub, &of.blocks), of.inertia, "the counting rule and the Rust differ");
            let (tests, head) = numbered(f, &of.steps, s.ncol);
            assert_eq!(tests, of.tests, "the test numbers are not those of the steps");
            assert_eq!(blocks_by_tests(&of.steps), of.blocks, "a block's test number is 4, and no other's");
            assert!(same_head(s, &head, &of), "the elimination by the text and the Rust differ");
            refuse_at(beyond(s.limit, &rounds), 8)?;
            refuse_at((0..s.ncol).find(|&k| !column_sound(s, &of, k)), 9)?;
            let marks = (s.ncol..s.nrow).map(|i| (0..s.ncol).any(|j| !of.panel[i + j * s.nrow].is_finite())).collect();
            Ok(Answer::Accepted { rounds: rounds.iter().map(|r| r.1).sum(), factored: of, marks })
        }
    }
}

/// The test numbers by position of a run's steps up to a position, by the numbers that they compared; and the head as
/// the text leaves it. How far the steps looked, and the text alone, must give the same numbers.
fn numbered(f: &Factor, steps: &[Step], until: usize) -> (Vec<u8>, Node) {
    let by_numbers: Vec<_> = steps.iter().map(|step| (step.at, test_numbers::of_step(step))).collect();
    let by_shape: Vec<_> = steps.iter().map(|step| (step.at, step.number())).collect();
    assert_eq!(by_numbers, by_shape, "what a step looked at and how far it looked differ");
    let (by_text, head) = test_numbers::steps(&f.settings, &f.panel, until);
    assert_eq!(by_numbers, by_text, "the text and the trace differ");
    let columns = |number: u8| if number == 4 { 2 } else { 1 };
    (by_numbers.into_iter().flat_map(|(_, number)| vec![number; columns(number)]).collect(), head)
}

/// Whether the head is left so: its order, and its lower numbers by bits, any two not-a-numbers alike.
fn same_head(s: &Settings, head: &Node, of: &Factored) -> bool {
    let alike = |x: f64, y: f64| x.to_bits() == y.to_bits() || (x.is_nan() && y.is_nan());
    let column = |j: usize| (j..s.ncol).all(|i| alike(head.at(i, j), of.panel[i + j * s.nrow]));
    head.order[..] == of.order[..s.ncol] && (0..s.ncol).all(column)
}

/// The block bytes that these steps leave.
fn blocks_by_tests(steps: &[Step]) -> Vec<bool> {
    let bytes = |step: &Step| if step.number() == 4 { &[true, false][..] } else { &[false] };
    steps.iter().flat_map(bytes).copied().collect()
}

/// The test number of the step that stops so. A 1x1 of zero passes the row test alone: over a column of zeros the first
/// decides, and the candidate's test asks for more than zero.
fn stop_test(on: Stop) -> u8 {
    match on {
        Stop::Column => 0,
        Stop::Single => 2,
        Stop::Block => 4,
    }
}

fn stop_number(on: Stop) -> usize {
    match on {
        Stop::Column => 7,
        Stop::Single => 23,
        Stop::Block => 24,
    }
}

/// What a run without lifts stops on at position k, if it does, by docs/SCOPE.md,
/// "The pivot tests", "A 1x1 pivot" and "A block", on the panel as the Rust left
/// it. The exchange for a block has been made there: row imax stands at k + 1,
/// where it is the first with its square, and has the numbers that it had.
fn stopped_on(s: &Settings, panel: &[f64], k: usize) -> Option<Stop> {
    let width = s.nb.min(s.ncol);
    let ke = s.ncol.min((k / width + 1) * width);
    let at = |i: usize, j: usize| panel[i.max(j) + i.min(j) * s.nrow];
    let greatest = |r: usize| {
        let squares = (k..ke).filter(|&i| i != r).map(|i| (at(i, r) * at(i, r), i));
        let (square, i) = squares.fold((0.0, k), |best, next| if next.0 > best.0 { next } else { best });
        (square.sqrt(), i)
    };
    let (own, (colmax, imax)) = (at(k, k).abs(), greatest(k));
    if own.max(colmax) == 0.0 {
        return Some(Stop::Column);
    }
    let alpha = (1.0 + 17f64.sqrt()) / 8.0;
    let (bar, rowmax) = (alpha * colmax, greatest(imax).0);
    if own >= bar || own >= bar * (colmax / rowmax) || at(imax, imax).abs() >= alpha * rowmax {
        return (at(k, k) == 0.0).then_some(Stop::Single);
    }
    let (d11, d21, d22) = (at(k, k), at(k + 1, k), at(k + 1, k + 1));
    ((d11 * d22 - d21 * d21).abs() <= growth_floor(d11, d21, d22)).then_some(Stop::Block)
}

fn scale(d11: f64, d21: f64, d22: f64) -> f64 {
    d11.abs().max(d22.abs()).max(d21.abs())
}

fn growth_floor(d11: f64, d21: f64, d22: f64) -> f64 {
    let scale = scale(d11, d21, d22);
    (GROWTH_EPS * scale) * scale
}

/// The first block that took more rounds than the limit.
fn beyond(limit: usize, rounds: &[(usize, usize)]) -> Option<usize> {
    rounds.iter().find(|r| r.1 > limit).map(|r| r.0)
}

/// The rounds of each lifted block, by docs/SCOPE.md, "A block", on the numbers
/// that the Rust left: the panel keeps a block's unlifted diagonal.
fn replayed(s: &Settings, floor: f64, f: &Factored) -> Vec<(usize, usize)> {
    let at = |i: usize, j: usize| f.panel[i + j * s.nrow];
    let mut all = Vec::new();
    for k in (0..s.ncol).filter(|&k| f.blocks[k]) {
        let (rounds, sum) = lift_rounds(floor, at(k, k), at(k + 1, k), at(k + 1, k + 1));
        assert_eq!(f.lifts[k], rounds > 0);
        assert_eq!(f.amounts[k].to_bits(), sum.to_bits());
        if rounds > 0 {
            all.push((k, rounds));
        }
    }
    all
}

/// How many rounds a block needs, and their sum.
pub fn lift_rounds(floor: f64, d11: f64, d21: f64, d22: f64) -> (usize, f64) {
    let bar = (floor * floor).max(growth_floor(d11, d21, d22));
    let below = |sum: f64| ((d11 + sum) * (d22 + sum) - d21 * d21).abs() < bar;
    let (mut rounds, mut sum) = (0, 0.0);
    if (d11 * d22 - d21 * d21).abs() < bar {
        let step = floor.max(scale(d11, d21, d22) * GROWTH_EPS.sqrt());
        (rounds, sum) = (1, step);
        while below(sum) {
            (rounds, sum) = (rounds + 1, sum + step);
        }
    }
    (rounds, sum)
}

/// Refusal 9's test of column k.
fn column_sound(s: &Settings, f: &Factored, k: usize) -> bool {
    let second = k > 0 && f.blocks[k - 1];
    let worked = if f.blocks[k] {
        let det = f.d[k] * f.d[k + 1] - f.sub[k] * f.sub[k];
        det.is_finite() && (1.0 / det).is_finite()
    } else {
        second || (1.0 / f.d[k]).is_finite()
    };
    worked && f.d[k].is_finite() && f.sub[k].is_finite() && (k..s.ncol).all(|i| f.panel[i + k * s.nrow].is_finite())
}

// ---- inertia

/// Refusals 19 and 16, then the counts. The Rust counts only what it factored;
/// `judge` holds this rule to it on every run.
fn inertia(i: &Inertia) -> Result<[usize; 3], Refusal> {
    let n = i.d.len();
    refuse_if(i.sub.len() != n || i.blocks.len() != n || n > MAX_COL, 19)?;
    refuse_at(bad_block(&i.blocks), 16)?;
    Ok(counts(&i.d, &i.sub, &i.blocks.iter().map(|&b| b == 1).collect::<Vec<_>>()))
}

pub fn bad_block(blocks: &[u8]) -> Option<usize> {
    (0..blocks.len()).find(|&k| blocks[k] > 1 || (blocks[k] == 1 && blocks.get(k + 1).is_none_or(|&next| next == 1)))
}

fn counts(d: &[f64], sub: &[f64], blocks: &[bool]) -> [usize; 3] {
    let (mut pos, mut neg, mut zero, mut k) = (0, 0, 0, 0);
    while k < d.len() {
        if !blocks[k] {
            *(if d[k] > 0.0 {
                &mut pos
            } else if d[k] < 0.0 {
                &mut neg
            } else {
                &mut zero
            }) += 1;
            k += 1;
            continue;
        }
        let det = d[k] * d[k + 1] - sub[k] * sub[k];
        let by_trace = if d[k] + d[k + 1] >= 0.0 { &mut pos } else { &mut neg };
        if det > 0.0 {
            *by_trace += 2;
        } else if det < 0.0 {
            (pos, neg) = (pos + 1, neg + 1);
        } else {
            *by_trace += 1;
            zero += 1;
        }
        k += 2;
    }
    [pos, neg, zero]
}

// ---- assembly and update

/// Refusals 10 to 12, then the Rust's panel.
fn assembled(a: &Assembly) -> Result<Vec<f64>, Refusal> {
    assembly_entry(a)?;
    Ok(reach::updated(&node(a, &(0..a.nrow as u32).collect::<Vec<_>>(), &[])))
}

fn assembly_entry(a: &Assembly) -> Checked {
    let n = a.rows.len();
    refuse_if(bad_shape(a.ncol, a.nrow), 10)?;
    refuse_if(a.cols.len() != n || a.numbers.len() != n || a.panel.len() != a.nrow * a.ncol, 10)?;
    let outside = |&e: &usize| a.rows[e] >= a.nrow || a.cols[e] >= a.ncol || a.rows[e] < a.cols[e];
    refuse_at((0..n).find(outside), 11)?;
    refuse_at((0..n).find(|&e| !a.numbers[e].is_finite()), 12)
}

/// Refusals 13 to 18, then the Rust's panel.
fn updated(u: &Update) -> Result<Vec<f64>, Refusal> {
    update_entry(u.ncol, u.nrow, &u.place, u.panel.len(), &u.descendant)?;
    let none = Assembly {
        ncol: u.ncol,
        nrow: u.nrow,
        panel: u.panel.clone(),
        rows: Vec::new(),
        cols: Vec::new(),
        numbers: Vec::new(),
    };
    Ok(reach::updated(&node(&none, &u.place.rows, std::slice::from_ref(&u.descendant))))
}

fn rising(rows: &[u32]) -> bool {
    rows.windows(2).all(|w| w[0] < w[1])
}

fn update_entry(ncol: usize, nrow: usize, place: &Place, panel: usize, k: &Descendant) -> Checked {
    let rows = &place.rows;
    refuse_if(bad_shape(ncol, nrow) || k.ncol > MAX_COL || k.below > MAX_ROW || k.ncol + k.below > MAX_ROW, 13)?;
    let lengths = panel == nrow * ncol
        && rows.len() == nrow
        && k.panel.len() == (k.ncol + k.below) * k.ncol
        && [k.d.len(), k.sub.len(), k.blocks.len()] == [k.ncol; 3]
        && k.rows.len() == k.below;
    refuse_if(!lengths, 13)?;
    let in_a_run = (0..ncol).all(|i| rows[i] as usize == place.first as usize + i);
    refuse_if(!rising(rows) || !in_a_run, 14)?;
    refuse_if(!rising(&k.rows), 15)?;
    refuse_at(bad_block(&k.blocks), 16)?;
    refuse_at(absent(ncol, rows, k), 17)?;
    let ld = k.ncol + k.below;
    let unsound = |&c: &usize| {
        !k.d[c].is_finite()
            || (k.blocks[c] == 1 && !k.sub[c].is_finite())
            || (k.ncol..ld).any(|i| !k.panel[i + c * ld].is_finite())
    };
    refuse_at((0..k.ncol).find(unsound), 18)
}

/// The first of the descendant's rows, from the first that lands on, that the
/// target lacks.
fn absent(ncol: usize, rows: &[u32], k: &Descendant) -> Option<usize> {
    let landing = k.rows.iter().position(|g| rows[..ncol].contains(g))?;
    (landing..k.rows.len()).find(|&i| k.ncol > 0 && !rows.contains(&k.rows[i]))
}

/// The node as the harness takes it; its parts have passed their checks.
fn node(a: &Assembly, rows: &[u32], descendants: &[Descendant]) -> reach::Node {
    let entries = (0..a.rows.len()).map(|e| (a.rows[e], a.cols[e], a.numbers[e])).collect();
    let descendants = descendants.iter().map(|k| reach::Descendant {
        ncol: k.ncol,
        rows: k.rows.clone(),
        panel: k.panel.clone(),
        d: k.d.clone(),
        sub: k.sub.clone(),
        blocks: k.blocks.iter().map(|&b| b == 1).collect(),
    });
    reach::Node {
        ncol: a.ncol,
        rows: rows.to_vec(),
        panel: a.panel.clone(),
        entries,
        descendants: descendants.collect(),
    }
}

// ---- the whole path

/// The checks of each part in turn, then the Rust's whole node.
fn whole(w: &Whole) -> Result<Answer, Refusal> {
    let (s, a) = (&w.settings, &w.assembly);
    assembly_entry(a)?;
    for k in &w.descendants {
        update_entry(a.ncol, a.nrow, &w.place, a.panel.len(), k)?;
    }
    let node = node(a, &w.place.rows, &w.descendants);
    let f = Factor { settings: *s, panel: reach::updated(&node), lengths: None };
    entry(&f)?;
    judge(&f, reach::whole(&node, s.nb, s.mode.floor()))
}
