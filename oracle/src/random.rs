//! Seeded random cases. The sizes stay within bounds that the caller names; the
//! numbers come in kinds, so that zeros, ties, blocks, lifts, overflow and
//! underflow all happen often.

use crate::case::*;
use crate::pivots::{self, Pivot};
use crate::{pivot_cases, rules};

/// splitmix64.
pub struct Rng(u64);

impl Rng {
    pub fn new(seed: u64) -> Self {
        Rng(seed)
    }

    pub fn next(&mut self) -> u64 {
        self.0 = self.0.wrapping_add(0x9E37_79B9_7F4A_7C15);
        let z = (self.0 ^ (self.0 >> 30)).wrapping_mul(0xBF58_476D_1CE4_E5B9);
        let z = (z ^ (z >> 27)).wrapping_mul(0x94D0_49BB_1331_11EB);
        z ^ (z >> 31)
    }

    /// A number from lo to hi, both included.
    pub fn within(&mut self, lo: usize, hi: usize) -> usize {
        lo + (self.next() % (hi - lo + 1) as u64) as usize
    }

    /// True once in n.
    pub fn once_in(&mut self, n: usize) -> bool {
        self.within(1, n) == 1
    }

    pub fn one_of<T: Copy>(&mut self, of: &[T]) -> T {
        of[self.within(0, of.len() - 1)]
    }
}

// ---- numbers

#[derive(Clone, Copy)]
enum Kind {
    /// -2 to 2: zero pivots, blocks, ties.
    Small,
    /// Quarters from -2 to 2.
    Quarters,
    /// 53 random digits near 1: every operation rounds.
    Rough,
    /// Digits and exponents from 2^-40 to 2^40.
    Wide,
    /// Squares and products underflow; subnormals.
    Tiny,
    /// Squares and products overflow.
    Huge,
    /// Signed zeros, and a one now and then.
    Zeros,
}

const KINDS: [Kind; 7] = [Kind::Small, Kind::Quarters, Kind::Rough, Kind::Wide, Kind::Tiny, Kind::Huge, Kind::Zeros];

/// Random digits and sign with a biased exponent from lo to hi; 0 is subnormal.
fn spread(rng: &mut Rng, lo: usize, hi: usize) -> f64 {
    let digits = if rng.once_in(3) { 0 } else { rng.next() >> 12 };
    f64::from_bits((rng.next() & (1 << 63)) | ((rng.within(lo, hi) as u64) << 52) | digits)
}

fn number(rng: &mut Rng, kind: Kind) -> f64 {
    match kind {
        Kind::Small => rng.one_of(&[-2.0, -1.0, -0.0, 0.0, 1.0, 2.0]),
        Kind::Quarters => (rng.within(0, 16) as f64 - 8.0) / 4.0,
        Kind::Rough => spread(rng, 1021, 1023),
        Kind::Wide => spread(rng, 1023 - 40, 1023 + 40),
        Kind::Tiny => spread(rng, 0, 520),
        Kind::Huge => spread(rng, 1530, 2046),
        Kind::Zeros => rng.one_of(&[0.0, -0.0, 0.0, -0.0, 1.0]),
    }
}

/// A finite number of any kind.
pub fn any_number(rng: &mut Rng) -> f64 {
    let kind = rng.one_of(&KINDS);
    number(rng, kind)
}

pub fn not_finite(rng: &mut Rng) -> f64 {
    rng.one_of(&[f64::NAN, f64::INFINITY, f64::NEG_INFINITY])
}

/// A not-a-number with a payload, quiet or signalling.
pub fn payload(bits: u64) -> f64 {
    f64::from_bits(0x7FF0_0000_0000_0001 | bits & 0x800F_FFFF_FFFF_FFFE)
}

/// Not-a-numbers with payloads into some upper positions.
pub fn upper_payloads(rng: &mut Rng, nrow: usize, panel: &mut [f64]) {
    for at in (0..panel.len()).filter(|at| at % nrow < at / nrow) {
        if rng.once_in(2) {
            panel[at] = payload(rng.next());
        }
    }
}

/// So many numbers in turn, signalling not-a-numbers and infinities among them.
pub fn held(n: usize) -> Vec<f64> {
    let of = [1.0, payload(2), -0.0, 1e308, 5e-324, f64::NEG_INFINITY, -2.5];
    of.into_iter().cycle().take(n).collect()
}

/// Numbers of one kind, or of two mixed, or a kind with zeros in between.
pub fn numbers(rng: &mut Rng, n: usize) -> Vec<f64> {
    let main = rng.one_of(&[Kind::Small, Kind::Small, Kind::Quarters, Kind::Rough, Kind::Wide, Kind::Tiny, Kind::Huge]);
    let other = if rng.once_in(3) { rng.one_of(&KINDS) } else { main };
    (0..n).map(|_| if rng.once_in(4) { number(rng, other) } else { number(rng, main) }).collect()
}

/// A panel. Some have a zero diagonal or a small one (blocks), some equal columns
/// (singular), some magnitudes all alike (ties), some a huge tail (marks).
fn panel(rng: &mut Rng, ncol: usize, nrow: usize) -> Vec<f64> {
    let mut a = numbers(rng, nrow * ncol);
    match rng.within(0, 8) {
        0 | 1 => (0..ncol).for_each(|k| a[k + k * nrow] = 0.0),
        2 => (0..ncol).for_each(|k| a[k + k * nrow] /= 1024.0),
        3 if ncol > 1 => (0..nrow).for_each(|i| a[i + nrow] = a[i]),
        4 => a.iter_mut().for_each(|x| *x = x.signum()),
        5 => (0..nrow * ncol).filter(|at| at % nrow >= ncol).for_each(|at| a[at] = number(rng, Kind::Huge)),
        _ => {}
    }
    a
}

// ---- calls

/// The bounds of a generated case.
#[derive(Clone, Copy)]
pub struct Bounds {
    pub max_col: usize,
    pub max_row: usize,
}

/// Fail, or Lift with a floor on, by or far from the numbers of a panel; a wrong one now and then.
pub fn mode(rng: &mut Rng, a: &[f64]) -> Mode {
    if rng.once_in(2) {
        return Mode::Fail;
    }
    // A magnitude out of the panel puts the floor on a pivot or right above it; a
    // multiple of one lifts a block, in several rounds now and then.
    let met = if a.is_empty() { 1.0 } else { a[rng.within(0, a.len() - 1)].abs() };
    let met = if met.is_finite() && met > 0.0 { met } else { 1.0 };
    let wrong = [0.0, -0.0, -1.0, f64::NAN, f64::INFINITY];
    let fixed = [0.5, 1.0, 2.0, 3.0, 1e-8, 1e-162, 1e-300, 5e-324, 1e150, 1e160, 1e308];
    Mode::Lift(match rng.within(0, 19) {
        0 => rng.one_of(&wrong),
        1..=6 => met,
        7 => f64::from_bits(met.to_bits() + 1),
        8..=12 => (met * rng.one_of(&[1.25, 1.5, 2.0, 3.0])).min(f64::MAX),
        _ => rng.one_of(&fixed),
    })
}

fn settings(rng: &mut Rng, bounds: Bounds, a: &mut Vec<f64>) -> Settings {
    let ncol = if rng.once_in(30) { 0 } else { rng.within(1, bounds.max_col) };
    let nrow = if rng.once_in(3) { ncol } else { rng.within(ncol, bounds.max_row.max(ncol)) };
    *a = panel(rng, ncol, nrow);
    let nb = match rng.within(0, 9) {
        0 => rng.within(ncol.clamp(1, 64), 64),
        1..=3 => ncol.clamp(1, 64),
        _ => rng.within(1, ncol.clamp(1, 64)),
    };
    let limit = rng.one_of(&[1, 1, 1, 2, 2, 3, 64, 17]);
    Settings { ncol, nrow, nb, mode: mode(rng, a), limit }
}

/// One setting, length or input made wrong: refusals 1, 2, 3, 5, 6, and inputs
/// above the diagonal, which are accepted.
fn spoil(rng: &mut Rng, f: &mut Factor) {
    let s = &mut f.settings;
    match rng.within(0, 6) {
        0 => (s.ncol, s.nrow) = (s.nrow + 1, s.ncol),
        1 => s.nb = rng.one_of(&[0, 65]),
        2 => s.limit = rng.one_of(&[0, 65]),
        3 => {
            let mut lengths = stated_lengths(s);
            let which = rng.within(0, lengths.len() - 1);
            lengths[which] += 1;
            f.lengths = Some(lengths);
        }
        _ => {
            for _ in 0..rng.within(1, 2) {
                if !f.panel.is_empty() {
                    let at = rng.within(0, f.panel.len() - 1);
                    f.panel[at] = not_finite(rng);
                }
            }
        }
    }
}

fn factor(rng: &mut Rng, bounds: Bounds) -> Factor {
    let mut panel = Vec::new();
    let settings = settings(rng, bounds, &mut panel);
    let mut f = Factor { settings, panel, lengths: None };
    if rng.once_in(8) {
        spoil(rng, &mut f);
    }
    f
}

/// A large node, the `i`-th of its run: up to 128 columns and 1,024 rows, panel
/// widths in turn, numbers that are accepted as a rule; blocks in every third.
pub fn large(rng: &mut Rng, i: usize) -> Factor {
    let nb = [1, 7, 32, 64][i % 4];
    let ncol = if i < 8 { 128 } else { rng.within(1, 128) };
    let nrow = if i < 4 { 1024 } else { rng.within(ncol, 1024) };
    let kind = rng.one_of(&[Kind::Rough, Kind::Rough, Kind::Wide, Kind::Quarters]);
    let mut panel: Vec<f64> = (0..ncol * nrow).map(|_| number(rng, kind)).collect();
    if rng.once_in(3) {
        (0..ncol).for_each(|k| panel[k + k * nrow] = 0.0);
    }
    let mode = if rng.once_in(2) { Mode::Fail } else { Mode::Lift(rng.one_of(&[1e-8, 0.125, 2.0])) };
    Factor { settings: Settings { ncol, nrow, nb, mode, limit: rng.one_of(&[1, 3, 64]) }, panel, lengths: None }
}

/// At most 16 entries: the reference's sort keeps the order of equal places in
/// short lists only.
fn assembly(rng: &mut Rng, bounds: Bounds) -> Assembly {
    let ncol = rng.within(1, bounds.max_col);
    let nrow = rng.within(ncol, bounds.max_row.max(ncol));
    let n = rng.within(0, 16);
    let cols: Vec<usize> = (0..n).map(|_| rng.within(0, ncol - 1)).collect();
    let mut a = Assembly {
        ncol,
        nrow,
        panel: numbers(rng, nrow * ncol),
        rows: cols.iter().map(|&c| rng.within(c, nrow - 1)).collect(),
        cols,
        numbers: numbers(rng, n),
    };
    match rng.within(0, 11) {
        0 if n > 0 => a.rows[rng.within(0, n - 1)] = rng.one_of(&[0, nrow]),
        1 if n > 0 => a.cols[rng.within(0, n - 1)] = ncol,
        2 if n > 0 => a.numbers[rng.within(0, n - 1)] = not_finite(rng),
        3 => a.numbers.push(1.0),
        4 if !a.panel.is_empty() => a.panel[rng.within(0, nrow * ncol - 1)] = not_finite(rng),
        _ => {}
    }
    a
}

/// A target's place: ncol rows in a run, then others with gaps.
pub fn place(rng: &mut Rng, ncol: usize, nrow: usize) -> Place {
    let first = rng.within(0, 9) as u32;
    let mut rows: Vec<u32> = Vec::new();
    for i in 0..nrow {
        let gap = if i < ncol.max(1) { 1 } else { rng.within(1, 3) as u32 };
        rows.push(rows.last().map_or(first, |last| last + gap));
    }
    Place { first, rows }
}

fn blocks(rng: &mut Rng, n: usize) -> Vec<u8> {
    let mut out = vec![0; n];
    let mut k = 0;
    while k + 1 < n {
        out[k] = rng.within(0, 1) as u8;
        k += 1 + out[k] as usize;
    }
    out
}

/// A descendant of a target with these rows: some of them, and some before.
pub fn descendant(rng: &mut Rng, bounds: Bounds, rows: &[u32]) -> Descendant {
    let ncol = if rng.once_in(12) { 0 } else { rng.within(1, bounds.max_col) };
    let mut below: Vec<u32> = (0..rows.first().map_or(0, |&r| r)).filter(|_| rng.once_in(5)).collect();
    below.extend(rows.iter().filter(|_| !rng.once_in(3)));
    let ld = ncol + below.len();
    Descendant {
        ncol,
        below: below.len(),
        rows: below,
        panel: numbers(rng, ld * ncol),
        d: numbers(rng, ncol),
        sub: numbers(rng, ncol),
        blocks: blocks(rng, ncol),
    }
}

/// One thing of an update made wrong: refusals 13 to 18, or a number in the
/// descendant's head, which is not read.
pub fn spoil_update(rng: &mut Rng, u: &mut Update) {
    let (k, rows) = (&mut u.descendant, &mut u.place.rows);
    match rng.within(0, 8) {
        0 => k.d.push(1.0),
        1 if rows.len() > 1 => rows.swap(0, 1),
        2 if k.rows.len() > 1 => k.rows.swap(0, 1),
        3 if k.ncol > 0 => k.blocks[k.ncol - 1] = rng.one_of(&[1, 2]),
        4 if rows.len() > u.ncol => *rows.last_mut().unwrap() += 1,
        8 => u.place.first += 1,
        5 if !k.panel.is_empty() => {
            let at = rng.within(0, k.panel.len() - 1);
            k.panel[at] = not_finite(rng);
        }
        6 if k.ncol > 0 => k.d[rng.within(0, k.ncol - 1)] = not_finite(rng),
        7 if k.ncol > 0 => k.sub[rng.within(0, k.ncol - 1)] = not_finite(rng),
        _ => {}
    }
}

fn update(rng: &mut Rng, bounds: Bounds) -> Update {
    let ncol = rng.within(1, bounds.max_col);
    let nrow = rng.within(ncol, bounds.max_row.max(ncol));
    let place = place(rng, ncol, nrow);
    let descendant = descendant(rng, bounds, &place.rows);
    let mut u = Update { ncol, nrow, place, panel: numbers(rng, nrow * ncol), descendant };
    if rng.once_in(4) {
        spoil_update(rng, &mut u);
    }
    u
}

fn whole(rng: &mut Rng, bounds: Bounds) -> Whole {
    let assembly = assembly(rng, bounds);
    let (ncol, nrow) = (assembly.ncol, assembly.nrow);
    let place = place(rng, ncol, nrow);
    let descendants = (0..rng.within(0, 3)).map(|_| descendant(rng, bounds, &place.rows)).collect();
    let nb = rng.within(1, ncol.min(64));
    let settings = Settings { ncol, nrow, nb, mode: mode(rng, &assembly.panel), limit: rng.within(1, 3) };
    Whole { settings, assembly, place, descendants }
}

fn inertia(rng: &mut Rng, bounds: Bounds) -> Inertia {
    let n = rng.within(0, bounds.max_col);
    let mut i = Inertia { d: numbers(rng, n), sub: numbers(rng, n), blocks: blocks(rng, n) };
    match rng.within(0, 7) {
        0 => i.sub.push(0.0),
        1 if n > 0 => i.blocks[n - 1] = rng.one_of(&[1, 2]),
        2 if n > 0 => i.d[rng.within(0, n - 1)] = not_finite(rng),
        _ => {}
    }
    i
}

// ---- solves

/// The numbers 0, 1, 2, .. in any order.
pub fn permutation(rng: &mut Rng, n: usize) -> Vec<usize> {
    let mut all: Vec<usize> = (0..n).collect();
    (1..n).rev().for_each(|last| all.swap(last, rng.within(0, last)));
    all
}

/// A root node for a factor call; a wrong one now and then.
pub fn root(rng: &mut Rng, bounds: Bounds) -> Factor {
    factor(rng, Bounds { max_row: 0, ..bounds })
}

/// What the reference leaves of a root node, if it accepts it, and a right side.
pub fn factored(rng: &mut Rng, f: Factor) -> Option<Solve> {
    let (ncol, nrow) = (f.settings.ncol, f.settings.nrow);
    let Answer::Accepted { factored: of, .. } = rules::answer(&Case::Factor(f)) else { return None };
    let (blocks, vector) = (of.blocks.into_iter().map(u8::from).collect(), numbers(rng, ncol));
    Some(Solve { ncol, nrow, panel: of.panel, d: of.d, sub: of.sub, blocks, order: of.order, vector })
}

/// A factor of any numbers, some of them not finite.
pub fn unrelated(rng: &mut Rng, n: usize) -> Solve {
    let (mut panel, mut d, mut sub) = (numbers(rng, n * n), numbers(rng, n), numbers(rng, n));
    if rng.once_in(3) {
        let list = match rng.within(0, 2) {
            0 => &mut panel,
            1 => &mut d,
            _ => &mut sub,
        };
        let one_in = list.len();
        list.iter_mut().for_each(|x| *x = if rng.once_in(one_in) { not_finite(rng) } else { *x });
    }
    let (blocks, order) = (blocks(rng, n), permutation(rng, n));
    Solve { ncol: n, nrow: n, panel, d, sub, blocks, order, vector: numbers(rng, n) }
}

/// One thing of a solve made wrong: refusals 1, 25, 26, 16, 27; now and then a place
/// of the order that stays as it was.
pub fn spoil_solve(rng: &mut Rng, s: &mut Solve) {
    let n = s.ncol;
    match rng.within(0, 9) {
        0 => s.nrow += 1,
        1 => s.d.push(1.0),
        2 => _ = s.vector.pop(),
        3 => s.order.push(n),
        4 | 5 if n > 0 => s.order[rng.within(0, n - 1)] = rng.within(0, n),
        6 | 7 if n > 0 => s.blocks[rng.within(0, n - 1)] = rng.one_of(&[1, 1, 2]),
        _ if n > 0 => s.vector[rng.within(0, n - 1)] = not_finite(rng),
        _ => {}
    }
}

fn solve(rng: &mut Rng, bounds: Bounds) -> Solve {
    let node = rng.once_in(2).then(|| root(rng, bounds));
    let mut s = node.and_then(|f| factored(rng, f)).unwrap_or_else(|| {
        let n = rng.within(0, bounds.max_col);
        unrelated(rng, n)
    });
    if rng.once_in(6) {
        spoil_solve(rng, &mut s);
    }
    s
}

// ---- pivot lists

/// A list for these block bytes: every other exchange is one with a later row.
fn list_of(rng: &mut Rng, blocks: &[u8]) -> Vec<i32> {
    let mut numbers = |pivot: Pivot| {
        let e = pivot.moved;
        pivot.numbers(if rng.once_in(2) { rng.within(e, blocks.len() - 1) } else { e })
    };
    pivots::by_blocks(blocks).into_iter().flat_map(&mut numbers).collect()
}

/// An order and block bytes, with the first rows of the blocks in their places or anywhere.
pub fn to_list(rng: &mut Rng, ncol: usize) -> ToLapack {
    let blocks = blocks(rng, ncol);
    let order = match rng.within(0, 3) {
        0 => permutation(rng, ncol),
        _ => pivots::FROM.answer(&pivot_cases::from(&list_of(rng, &blocks))).expect("a list").0,
    };
    pivot_cases::to(&order, &blocks)
}

/// One thing of a call to LAPACK made wrong: refusals 1, 25, 26, 16 and 28; now and then it stays as it was.
pub fn spoil_to_list(rng: &mut Rng, c: &mut ToLapack) {
    let n = c.ncol;
    match rng.within(0, 9) {
        0 => c.ncol = rng.one_of(&[n + 1, 129, 1024]),
        1 => c.order.push(n),
        2 => _ = c.list.pop(),
        3 => c.blocks.push(0),
        4 | 5 if n > 0 => c.order[rng.within(0, n - 1)] = rng.within(0, n),
        6 | 7 if n > 0 => c.blocks[rng.within(0, n - 1)] = rng.one_of(&[0, 1, 1, 2]),
        _ if n > 0 => c.order.swap(rng.within(0, n - 1), n - 1),
        _ => {}
    }
}

fn to_lapack(rng: &mut Rng, bounds: Bounds) -> ToLapack {
    let n = rng.within(0, bounds.max_col);
    let mut c = to_list(rng, n);
    if rng.once_in(5) {
        spoil_to_list(rng, &mut c);
    }
    c
}

/// A list that is accepted.
pub fn from_list(rng: &mut Rng, ncol: usize) -> FromLapack {
    let blocks = blocks(rng, ncol);
    pivot_cases::from(&list_of(rng, &blocks))
}

/// One thing of a call from LAPACK made wrong, as a rule a number: refusals 1, 25, 29 and 30.
pub fn spoil_from_list(rng: &mut Rng, c: &mut FromLapack) {
    let n = c.ncol;
    match rng.within(0, 15) {
        0 => c.ncol = rng.one_of(&[n + 1, 129, 1024]),
        1 => _ = c.list.pop(),
        2 => c.order.push(0),
        3 => c.blocks.push(0),
        kind if n > 0 => {
            let (k, most) = (rng.within(0, n - 1), n as i32 + 1);
            let number = match kind {
                4 => rng.one_of(&[i32::MIN, i32::MAX, -i32::MAX, 0]),
                5 => -c.list[k],
                6..=9 => c.list[k] + rng.one_of(&[-1, 1]),
                _ => rng.within(0, 2 * most as usize) as i32 - most,
            };
            let columns = if number < 0 && rng.once_in(2) { 2 } else { 1 };
            c.list[k..n.min(k + columns)].fill(number);
        }
        _ => {}
    }
}

fn from_lapack(rng: &mut Rng, bounds: Bounds) -> FromLapack {
    let n = rng.within(0, bounds.max_col);
    let mut c = from_list(rng, n);
    if rng.once_in(3) {
        spoil_from_list(rng, &mut c);
    }
    c
}

// ---- leaves

fn leaf(rng: &mut Rng) -> Leaf {
    let name = rng.one_of(&["sqrt", "magnitude", "square", "maximum", "reciprocal", "lift"]);
    let mut any = || if rng.once_in(12) { not_finite(rng) } else { any_number(rng) };
    let (a, b) = (any(), any());
    // A lift's floor has no sign. Of zeros of unlike sign the Rust's maximum
    // may be either.
    let b = if name == "lift" || (a == 0.0 && b == 0.0) { b.abs() } else { b };
    let a = if b == 0.0 && a == 0.0 { a.abs() } else { a };
    Leaf { name: name.to_string(), a, b }
}

/// Any bits with either sign: now and then a zero's or an infinity's, and every third time or so a not-a-number's.
fn any_bits(rng: &mut Rng) -> u64 {
    let bits = match rng.within(0, 7) {
        0 => 0,
        1 => 0x7FF << 52,
        2..=4 => rng.next() | 0x7FF << 52,
        _ => rng.next(),
    };
    bits ^ (rng.next() & 1) << 63
}

/// A case of the kind that a word names.
pub fn case(rng: &mut Rng, kind: &str, bounds: Bounds) -> Option<Case> {
    Some(match kind {
        "factor" => Case::Factor(factor(rng, bounds)),
        "assembly" => Case::Assembly(assembly(rng, bounds)),
        "update" => Case::Update(update(rng, bounds)),
        "whole" => Case::Whole(whole(rng, bounds)),
        "inertia" => Case::Inertia(inertia(rng, bounds)),
        "solve" => Case::Solve(solve(rng, bounds)),
        "to_lapack" => Case::ToLapack(to_lapack(rng, bounds)),
        "from_lapack" => Case::FromLapack(from_lapack(rng, bounds)),
        "leaf" => Case::Leaf(leaf(rng)),
        "magnitude" => Case::Magnitude(any_bits(rng)),
        _ => return None,
    })
}
