//! Seeded calls on targets: assemblies, updates and inertia lists one by one, and nodes worked whole. A descendant is
//! random, or a node that the library has factored.

use crate::call::Left;
use oracle::case::*;
use oracle::random::{self, Bounds, Rng};

/// The bounds of the random nodes.
pub const BOUNDS: Bounds = Bounds { max_col: 8, max_row: 16 };

// ---- factored nodes

/// The node of an accepted factor call as a descendant to be, whose rows are not yet named.
pub fn emitted(f: &Factor, left: &Left) -> Descendant {
    let (s, b) = (&f.settings, &left.buffers);
    Descendant {
        ncol: s.ncol,
        below: s.nrow - s.ncol,
        rows: Vec::new(),
        panel: b.panel.clone(),
        d: b.d.clone(),
        sub: b.sub.clone(),
        blocks: b.blocks.clone(),
    }
}

/// Some of the nodes that the library has factored.
#[derive(Default)]
pub struct Pool(Vec<Descendant>);

impl Pool {
    const MOST: usize = 64;

    pub fn add(&mut self, rng: &mut Rng, emitted: Descendant) {
        match self.0.len() {
            Self::MOST => self.0[rng.within(0, Self::MOST - 1)] = emitted,
            _ => self.0.push(emitted),
        }
    }

    /// One of them, if there is one.
    fn one(&self, rng: &mut Rng) -> Option<&Descendant> {
        self.0.get(rng.within(0, self.0.len().max(1) - 1))
    }
}

/// A factored node below a target: some of its rows are the target's, the others stand before it. None where they find
/// no room there.
fn below(rng: &mut Rng, emitted: &Descendant, place: &Place) -> Option<Descendant> {
    let count = emitted.below;
    let before = (2 * count as u32).min(place.first);
    let (least, most) = (count.saturating_sub(before as usize), count.min(place.rows.len()));
    let shared = if least <= most { rng.within(least, most) } else { return None };
    let mut rows = some(rng, &(place.first - before..place.first).collect::<Vec<_>>(), count - shared);
    rows.extend(some(rng, &place.rows, shared));
    Some(Descendant { rows, ..emitted.clone() })
}

/// A factored node's update of some target. Only a number that is not finite can be wrong with it.
pub fn update(rng: &mut Rng, emitted: &Descendant) -> Update {
    let (ncol, nrow) = shape(rng);
    let (near, far) = (emitted.below as u32, u32::MAX - 9 - 3 * BOUNDS.max_row as u32);
    let place = place(rng, ncol, nrow, &[near, near + 1, 70_000, far]);
    let descendant = below(rng, emitted, &place).expect("there is room");
    Update { ncol, nrow, panel: random::numbers(rng, ncol * nrow), place, descendant }
}

/// So many of a list, in its order.
fn some(rng: &mut Rng, of: &[u32], count: usize) -> Vec<u32> {
    let mut missing = count;
    let mut taken = Vec::new();
    for (i, &g) in of.iter().enumerate() {
        if rng.within(1, of.len() - i) <= missing {
            taken.push(g);
            missing -= 1;
        }
    }
    taken
}

// ---- single calls

/// One call; which kind, by lot.
pub fn single(rng: &mut Rng, pool: &Pool) -> Case {
    let by_word = |rng: &mut Rng, word: &str| random::case(rng, word, BOUNDS).unwrap();
    let mut case = match rng.within(0, 9) {
        0 | 1 => by_word(rng, "assembly"),
        2 => Case::Assembly(distinct(rng)),
        3..=5 => by_word(rng, "update"),
        6..=8 => spoilt(rng, pool).map_or_else(|| by_word(rng, "update"), Case::Update),
        _ => by_word(rng, "inertia"),
    };
    match &mut case {
        Case::Assembly(Assembly { nrow, panel, .. }) | Case::Update(Update { nrow, panel, .. }) => {
            payloads(rng, *nrow, panel)
        }
        _ => {}
    }
    case
}

/// Not-a-numbers with payloads: in some panels above the diagonal, in some anywhere.
fn payloads(rng: &mut Rng, nrow: usize, panel: &mut [f64]) {
    match rng.within(0, 5) {
        0 | 1 => random::upper_payloads(rng, nrow, panel),
        2 => panel.iter_mut().for_each(|x| *x = if rng.once_in(4) { random::payload(rng.next()) } else { *x }),
        _ => {}
    }
}

/// Columns and rows of a target; none of the first now and then.
fn shape(rng: &mut Rng) -> (usize, usize) {
    let ncol = if rng.once_in(20) { 0 } else { rng.within(1, BOUNDS.max_col) };
    (ncol, rng.within(ncol, BOUNDS.max_row))
}

/// As many entries as one likes, no two at one place, in any order.
fn distinct(rng: &mut Rng) -> Assembly {
    let (ncol, nrow) = shape(rng);
    let mut places: Vec<(usize, usize)> = (0..ncol).flat_map(|j| (j..nrow).map(move |i| (i, j))).collect();
    for last in (1..places.len()).rev() {
        places.swap(last, rng.within(0, last));
    }
    if rng.once_in(2) {
        places.truncate(rng.within(0, places.len()));
    }
    let mut numbers = random::numbers(rng, places.len());
    if !numbers.is_empty() && rng.once_in(16) {
        let at = rng.within(0, numbers.len() - 1);
        numbers[at] = random::not_finite(rng);
    }
    let (rows, cols) = places.into_iter().unzip();
    Assembly { ncol, nrow, panel: random::numbers(rng, ncol * nrow), rows, cols, numbers }
}

/// A target whose first row is one of the given ones or up to nine more.
fn place(rng: &mut Rng, ncol: usize, nrow: usize, from: &[u32]) -> Place {
    let (Place { first, rows }, from) = (random::place(rng, ncol, nrow), rng.one_of(from));
    Place { first: first + from, rows: rows.into_iter().map(|g| g + from).collect() }
}

/// A factored node's update; one thing of it wrong now and then, most often an absent row.
fn spoilt(rng: &mut Rng, pool: &Pool) -> Option<Update> {
    let emitted = pool.one(rng)?;
    let mut u = update(rng, emitted);
    match rng.within(0, 5) {
        0 | 1 => strange_row(rng, &mut u.descendant.rows),
        2 => random::spoil_update(rng, &mut u),
        _ => {}
    }
    Some(u)
}

/// Another row in the place of one, still rising.
fn strange_row(rng: &mut Rng, rows: &mut [u32]) {
    if let Some(at) = rows.len().checked_sub(1).map(|last| rng.within(0, last)) {
        let from = if at == 0 { 0 } else { rows[at - 1] + 1 };
        let until = rows.get(at + 1).map_or(rows[at] + 3, |next| next - 1);
        rows[at] = rng.within(from as usize, until as usize) as u32;
    }
}

// ---- nodes worked whole

/// Entries for a panel of zeros or of any numbers: a few, as listed, or many at as many places.
fn assembly(rng: &mut Rng) -> Assembly {
    let mut a = match rng.within(0, 2) {
        0 => match random::case(rng, "assembly", BOUNDS) {
            Some(Case::Assembly(a)) => a,
            _ => unreachable!(),
        },
        _ => distinct(rng),
    };
    if rng.once_in(2) {
        a.panel.fill(0.0);
    }
    if rng.once_in(3) {
        random::upper_payloads(rng, a.nrow, &mut a.panel);
    }
    a
}

/// A descendant, factored or random; now and then with a row that the target may lack.
fn descendant(rng: &mut Rng, pool: &Pool, place: &Place) -> Descendant {
    let emitted = if rng.once_in(3) { None } else { pool.one(rng) };
    let found = emitted.and_then(|k| below(rng, k, place));
    let mut k = found.unwrap_or_else(|| random::descendant(rng, BOUNDS, &place.rows));
    if rng.once_in(40) {
        strange_row(rng, &mut k.rows);
    }
    k
}

/// A node with its entries and up to four descendants, random or factored; a wrong one now and then.
pub fn whole(rng: &mut Rng, pool: &Pool) -> Whole {
    let assembly = assembly(rng);
    let (ncol, nrow) = (assembly.ncol, assembly.nrow);
    let place = place(rng, ncol, nrow, &[0, BOUNDS.max_row as u32]);
    let descendants = (0..rng.within(0, 4)).map(|_| descendant(rng, pool, &place)).collect();
    let nb = rng.within(1, ncol.clamp(1, 64));
    let settings = Settings { ncol, nrow, nb, mode: random::mode(rng, &assembly.numbers), limit: rng.within(1, 3) };
    Whole { settings, assembly, place, descendants }
}

/// A large node, the `i`-th of its run: up to 128 columns and 1,024 rows, its numbers in the panel and two descendants
/// of up to 128 columns and 1,024 rows.
pub fn large(rng: &mut Rng, i: usize) -> Whole {
    let Factor { settings, panel, .. } = random::large(rng, i);
    let (ncol, nrow) = (settings.ncol, settings.nrow);
    let (cols, rows) = ((0..ncol).collect(), (0..ncol).map(|j| rng.within(j, nrow - 1)).collect());
    let assembly = Assembly { ncol, nrow, panel, numbers: vec![0.5; ncol], rows, cols };
    let place = place(rng, ncol, nrow, &[2_000_000_000]);
    let descendants = (0..2).map(|_| wide(rng, &place, i < 2)).collect();
    Whole { settings, assembly, place, descendants }
}

/// A descendant of up to 128 columns and 1,024 rows, or of so many, with blocks in every other pair of columns.
fn wide(rng: &mut Rng, place: &Place, widest: bool) -> Descendant {
    let nk = if widest { 128 } else { rng.within(1, 128) };
    let shared = if widest { 1024 - nk } else { rng.within(0, 1024 - nk) }.min(place.rows.len());
    let before = rng.within(0, (1024 - nk - shared).min(64));
    let mut rows: Vec<u32> = (place.first - before as u32..place.first).collect();
    rows.extend(some(rng, &place.rows, shared));
    let mut numbers = |n: usize| (0..n).map(|_| (rng.within(0, 1 << 20) as f64 - 524_288.0) / 1e9).collect::<Vec<_>>();
    let blocks = (0..nk).map(|c| u8::from(c % 4 == 0 && c + 1 < nk)).collect();
    let (panel, d, sub) = (numbers((nk + rows.len()) * nk), numbers(nk), numbers(nk));
    Descendant { ncol: nk, below: rows.len(), rows, panel, d, sub, blocks }
}
