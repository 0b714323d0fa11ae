//! Records answers of the reference, and of solve and the pivot lists as they are restated, for the program
//! crates/replay, which replays them on the port: the stations, the telling cases, cases at the bounds, small random
//! cases of the seven calls and of the magnitude, and some larger ones. The legend that it writes has the file's
//! format. Asked for a case by its call and number, it prints that case as a line instead.

use oracle::case::*;
use oracle::random::{self, Bounds, Rng};
use oracle::{lines, pivot_cases, rules, telling};
use std::collections::BTreeMap;
use std::path::Path;

const SMALL: Bounds = Bounds { max_col: 6, max_row: 10 };
const NEIGHBOURS: Bounds = Bounds { max_col: 4, max_row: 8 };
const MIDDLE: Bounds = Bounds { max_col: 16, max_row: 40 };
const LARGE: Bounds = Bounds { max_col: 64, max_row: 96 };
const WIDE: Bounds = Bounds { max_col: 128, max_row: 128 };

/// What the program has room for: the numbers of a panel or a working buffer; pivots or entries; rows; global rows.
const ROOM: usize = 30_000;
const ROOM_COLUMNS: usize = 130;
const ROOM_ROWS: usize = 1_026;
const ROOM_GLOBAL_ROWS: usize = 1_024;

const KINDS: usize = 8;

/// The calls, and the leaf that is recorded too; each new one comes last.
const CALLS: [&str; KINDS] =
    ["factor", "inertia", "assembly", "update", "solve", "magnitude", "to_lapack", "from_lapack"];

/// What is counted of each. Each has to be met.
const OUTCOMES: [&str; KINDS] = [
    "accepted in Fail/accepted in Lift/with blocks/with an exchange/with lifts/with rounds/with two rounds or more/\
     with marks/with several panels/with tail rows/with test number 0/with test number 1/with test number 2/\
     with test number 3/with test number 4/refused 1/refused 2/refused 3/refused 4/refused 5/refused 6/refused 7/\
     refused 8/refused 9/refused 23/refused 24",
    "counts/refused 16/refused 19",
    "done/refused 10/refused 11/refused 12",
    "done/done, no landing/refused 13/refused 14/refused 15/refused 16/refused 17/refused 18",
    "solved/with blocks/in another order/not finite in the end/refused 1/refused 16/refused 25/refused 26/refused 27",
    "with a sign/of a zero/of another number/of an infinity/of a quiet not-a-number/of a signalling not-a-number",
    "listed/with blocks/with an exchange/with an exchange at a block/with a first row from elsewhere/refused 1/\
     refused 16/refused 25/refused 26/refused 28",
    "read/with blocks/with an exchange/with an exchange at a block/refused 1/refused 25/refused 29/refused 30/\
     refused with the least i32",
];

const TITLE: &str =
    "Answers of the reference, with the test numbers that oracle/src/test_numbers.rs works out of its steps, and of solve
and the pivot lists as oracle/src/solve.rs and pivots.rs restate them, recorded by";

const LEGEND: &str = "\
Of each call the stations, the telling cases of oracle/src/telling.rs, test_cases.rs, systems.rs and pivot_cases.rs and
cases at the bounds come first, of the magnitude the bits of magnitude.rs beside them; then random ones, the larger last.
`oracle/record SEED COUNT CALL NUMBER` prints one case, counted from 0, as a line of the oracle's with its answer.

Little-endian. A count is a u16, a number the u64 of its bits (every not-a-number 7FF8000000000000), bits a u64 as they
are, a global row a u32, any other row or column a count, a number of LAPACK's list an i32, a byte a byte; a list stands
without its length.

file      'replay 1'; the Adler-32 of what follows, a u32; the counts of cases of factor, inertia, assembly, update,
          solve, magnitude, to_lapack and from_lapack; the cases in that order
answer    counts: the refusal's number (0: none), its place A, B, rounds, positive, negative, zero
factor    answer; counts ncol nrow nb limit; count 1 for Lift, 0 for Fail; the floor, a number; the lengths of input,
          panel, d, subdiagonal, block bytes, lift bytes, amounts, test numbers, order, marks, working buffer; the
          input. If it is accepted: panel, d, subdiagonal, block bytes, lift bytes, amounts, test numbers (a byte each),
          order, marks; the working buffer then holds +0.0. What a refused call leaves is not recorded: zeros after 7,
          8, 9, 23 and 24, else what the buffers held
inertia   answer; the lengths of d, subdiagonal, block bytes; the three lists
assembly  answer; counts ncol nrow; the lengths of rows, columns, numbers, panel; the four lists; the panel as it
          is left
update    answer; counts ncol nrow nk mk; the target's first row; the lengths of rows, panel, and the descendant's
          panel, d, subdiagonal, block bytes, rows; the seven lists; the panel as it is left
solve     answer; counts ncol nrow; the lengths of panel, d, subdiagonal, block bytes, order, vector; the six lists; the
          vector as it is left
magnitude bits; those of the magnitude. No answer before them: the leaf refuses nothing
to_lapack answer; count ncol; the lengths of order, block bytes, list; the first two. If it is accepted: the list; else
          it is left as it was
from_lapack
          answer; count ncol; the lengths of list, order, block bytes; the list. If it is accepted: order, block bytes;
          else they are left as they were
";

fn main() {
    let words: Vec<String> = std::env::args().skip(1).collect();
    let (seed, count, asked) = match words.as_slice() {
        [_, seed, count] => (number(seed), number(count), None),
        [_, seed, count, call, at] => (number(seed), number(count), Some((call.as_str(), number(at)))),
        _ => stop("usage: record FOLDER SEED COUNT [CALL NUMBER]"),
    };
    let mut all = Recorded { asked, ..Recorded::default() };
    for case in hand_made() {
        all.add(&case);
    }
    random_cases(&mut all, &mut Rng::new(seed as u64), count);
    if asked.is_none() {
        let told = all.outcomes();
        print!("seed {seed}\n{told}");
        let legend = format!("{TITLE} oracle/record {seed} {count}.\n\n{told}\n{LEGEND}");
        all.write(Path::new(&words[0]), &legend);
    }
}

fn stop(why: &str) -> ! {
    eprintln!("record: {why}");
    std::process::exit(2)
}

fn number(text: &str) -> usize {
    text.parse().unwrap_or_else(|_| stop(&format!("{text}: not a number")))
}

// ---- cases

/// The stations, the telling cases and those at the bounds. For the stations of 128 columns `widest_node` stands.
fn hand_made() -> Vec<Case> {
    let named = telling::stations().into_iter().chain(telling::telling()).map(|(_, case)| case);
    let widest = |case: &Case| match case {
        Case::Factor(f) => f.settings.ncol == 128,
        Case::Solve(s) => s.ncol == 128,
        _ => false,
    };
    let bounds = factor_bounds().chain(inertia_bounds()).chain(assembly_bounds()).chain(update_bounds());
    named.filter(|case| !widest(case)).chain(bounds).chain(solve_bounds()).chain(list_bounds()).collect()
}

/// So many small cases, six of ten of them factor calls; more of what is rare among them; some larger ones; a tenth as
/// many systems, as many bits, and as many pivot lists to LAPACK and from it.
fn random_cases(all: &mut Recorded, rng: &mut Rng, count: usize) {
    let few = [("inertia", SMALL), ("assembly", NEIGHBOURS), ("update", NEIGHBOURS), ("update", NEIGHBOURS)];
    for i in 0..count {
        let (kind, bounds) = few.get(i % 10).copied().unwrap_or(("factor", SMALL));
        all.add(&random_case(rng, kind, bounds));
    }
    for (kind, rare) in [("factor", "with marks"), ("factor", "refused 8"), ("update", "refused 15")] {
        (0..30).for_each(|_| all.add(&such(rare, || random_case(rng, kind, NEIGHBOURS))));
    }
    for (kind, n) in [("factor", 60), ("inertia", 10), ("assembly", 10), ("update", 10)] {
        (0..n).for_each(|_| all.add(&random_case(rng, kind, MIDDLE)));
    }
    (0..3).for_each(|_| all.add(&such("with several panels", || large(rng))));
    all.add(&such("with several panels", || widest(rng)));
    solves(all, rng, count / 10);
    (0..count / 10).for_each(|_| all.add(&random_case(rng, "magnitude", SMALL)));
    for kind in ["to_lapack", "from_lapack"] {
        (0..count / 10).for_each(|_| all.add(&random_case(rng, kind, SMALL)));
        (0..20).for_each(|_| all.add(&random_case(rng, kind, MIDDLE)));
        (0..10).for_each(|_| all.add(&random_case(rng, kind, WIDE)));
    }
}

/// So many small systems, and some larger ones.
fn solves(all: &mut Recorded, rng: &mut Rng, count: usize) {
    (0..count).for_each(|_| all.add(&random_case(rng, "solve", SMALL)));
    (0..20).for_each(|_| all.add(&random_case(rng, "solve", MIDDLE)));
    (0..3).for_each(|_| all.add(&system_of(rng, large_root)));
    all.add(&system_of(rng, widest_node));
}

fn random_case(rng: &mut Rng, kind: &str, bounds: Bounds) -> Case {
    random::case(rng, kind, bounds).unwrap()
}

/// The first case of an outcome.
fn such(wanted: &str, mut next: impl FnMut() -> Case) -> Case {
    loop {
        let case = next();
        if outcome(&case, &rules::answer(&case)).iter().any(|met| met == wanted) {
            return case;
        }
    }
}

/// A node of more than 32 columns.
fn large(rng: &mut Rng) -> Case {
    loop {
        let case = random_case(rng, "factor", LARGE);
        if matches!(&case, Case::Factor(f) if f.settings.ncol > 32) {
            return case;
        }
    }
}

/// A root node of more than 32 columns.
fn large_root(rng: &mut Rng) -> Factor {
    loop {
        let f = random::root(rng, LARGE);
        if f.settings.ncol > 32 {
            return f;
        }
    }
}

/// A system with the factor of the first of some nodes that is accepted.
fn system_of(rng: &mut Rng, node: fn(&mut Rng) -> Factor) -> Case {
    loop {
        let f = node(rng);
        if let Some(s) = random::factored(rng, f) {
            return Case::Solve(s);
        }
    }
}

fn widest(rng: &mut Rng) -> Case {
    Case::Factor(widest_node(rng))
}

/// The head of a large node of 128 columns: nb 64, limit 64.
fn widest_node(rng: &mut Rng) -> Factor {
    let mut f = random::large(rng, 7);
    assert!(f.settings.ncol == 128 && f.settings.nb == 64);
    f.settings = Settings { nrow: 128, mode: Mode::Lift(0.125), limit: 64, ..f.settings };
    f.panel.truncate(128 * 128);
    f
}

/// An identity head over a zero tail.
fn identity(ncol: usize, nrow: usize, nb: usize, mode: Mode, limit: usize) -> Factor {
    let mut panel = vec![0.0; ncol * nrow];
    (0..ncol.min(nrow)).for_each(|k| panel[k + k * nrow] = 1.0);
    Factor { settings: Settings { ncol, nrow, nb, mode, limit }, panel, lengths: None }
}

/// Settings at their bounds and beyond; a diagonal at alpha·colmax and a step below, where rows are exchanged; each
/// buffer one cell too long and one too short.
fn factor_bounds() -> impl Iterator<Item = Case> {
    let mut all = Vec::new();
    for (ncol, nrow) in [(0, 0), (0, 1024), (0, 1025), (1, 0), (1, 1024), (1, 1025)] {
        all.push(identity(ncol, nrow, 1, Mode::Fail, 0));
    }
    for floor in [5e-324, f64::MAX, 0.0, -0.0, -1.0, f64::NAN, f64::INFINITY, f64::NEG_INFINITY] {
        all.push(identity(1, 1, 1, Mode::Lift(floor), 1));
    }
    for (nb, limit) in [(0, 1), (64, 1), (2, 0), (2, 64)] {
        all.push(identity(2, 3, nb, Mode::Lift(0.5), limit));
    }
    let alpha = rslab::reach::leaf("alpha", 0.0, 0.0).unwrap();
    for diagonal in [alpha, f64::from_bits(alpha.to_bits() - 1)] {
        all.push(Factor { panel: vec![diagonal, 1.0, 0.0, 3.0], ..identity(2, 2, 2, Mode::Fail, 1) });
    }
    let sound = identity(2, 5, 2, Mode::Fail, 1);
    for off in [-1, 1] {
        for which in 0..BUFFERS.len() {
            let mut lengths = stated_lengths(&sound.settings);
            lengths[which] = lengths[which].saturating_add_signed(off);
            all.push(Factor { lengths: Some(lengths), ..sound.clone() });
        }
        let mut f = Factor { lengths: Some(stated_lengths(&sound.settings)), ..sound.clone() };
        f.panel.resize(f.panel.len().saturating_add_signed(off), 1.0);
        all.push(f);
    }
    all.into_iter().map(Case::Factor)
}

fn inertia_bounds() -> impl Iterator<Item = Case> {
    let lengths = [(128, 128, 128), (129, 129, 129), (3, 2, 3), (3, 3, 2), (2, 3, 3), (0, 0, 0)];
    let lists = lengths.map(|(d, sub, blocks)| (d, sub, vec![0; blocks]));
    let bytes = [vec![0, 1, 1, 0], vec![0, 0, 1], vec![0, 2, 1], vec![1, 0, 1, 0]].map(|b| (b.len(), b.len(), b));
    let all = lists.into_iter().chain(bytes);
    all.map(|(d, sub, blocks)| Case::Inertia(Inertia { d: vec![-2.0; d], sub: vec![3.0; sub], blocks }))
}

fn assembly_bounds() -> impl Iterator<Item = Case> {
    let entries = |ncol: usize, nrow: usize, rows: &[usize], cols: &[usize], numbers: usize| {
        let panel = if ncol > 128 { Vec::new() } else { vec![0.5; ncol * nrow] };
        Assembly { ncol, nrow, panel, rows: rows.to_vec(), cols: cols.to_vec(), numbers: vec![1.5; numbers] }
    };
    let mut all = vec![
        entries(0, 3, &[], &[], 0),
        entries(129, 129, &[], &[], 0),
        entries(2, 1, &[], &[], 0),
        entries(1, 1024, &[1023], &[0], 1),
        entries(1, 1025, &[1023], &[0], 1),
        entries(2, 3, &[1, 2], &[0], 2),
        entries(2, 3, &[1], &[0, 0], 2),
        entries(2, 3, &[1, 2], &[0, 1], 1),
        entries(2, 3, &[1, 0], &[1, 1], 2),
        entries(2, 3, &[1, 3], &[1, 0], 2),
        entries(2, 3, &[2, 2], &[1, 2], 2),
    ];
    let mut short = entries(2, 3, &[1], &[0], 1);
    short.panel.pop();
    all.push(short);
    all.into_iter().map(Case::Assembly)
}

/// Sizes at their bounds and beyond; equal rows; each list one longer and one shorter.
fn update_bounds() -> impl Iterator<Item = Case> {
    let one = |first: u32, below: usize| {
        let rows: Vec<u32> = (0..below as u32).map(|i| first + i).collect();
        let (panel, d) = (vec![0.75; below + 1], vec![2.0]);
        let place = Place { first, rows: rows[..below.min(1024)].to_vec() };
        let descendant = Descendant { ncol: 1, below, rows, panel, d, sub: vec![0.0], blocks: vec![0] };
        Update { ncol: 1, nrow: below.min(1024), place, panel: vec![8.0; below.min(1024)], descendant }
    };
    let mut all = vec![one(3, 1023), one(3, 1024), one(u32::MAX - 2, 3)];
    let with = |change: fn(&mut Update)| {
        let mut u = one(4, 3);
        change(&mut u);
        u
    };
    all.push(with(|u| u.place = Place { first: u32::MAX - 1, rows: vec![u32::MAX - 1, u32::MAX, 0] }));
    all.push(with(|u| u.place.rows = vec![4, 5, 5]));
    all.push(with(|u| u.descendant.rows = vec![4, 5, 5]));
    for off in [-1, 1] {
        let longer = |n: usize| n.saturating_add_signed(off);
        for which in 0..7 {
            let mut u = one(4, 2);
            let k = &mut u.descendant;
            match which {
                0 => u.place.rows.resize(longer(2), 6),
                1 => u.panel.resize(longer(2), 8.0),
                2 => k.panel.resize(longer(3), 0.75),
                3 => k.d.resize(longer(1), 2.0),
                4 => k.sub.resize(longer(1), 0.0),
                5 => k.blocks.resize(longer(1), 0),
                _ => k.rows.resize(longer(2), 6),
            }
            all.push(u);
        }
    }
    all.into_iter().map(Case::Update)
}

/// Shapes that meet refusal 1, with empty lists; each list one longer and one shorter; a row far out of range.
fn solve_bounds() -> impl Iterator<Item = Case> {
    let sound = |n: usize| Solve {
        ncol: n,
        nrow: n,
        panel: vec![0.5; n * n],
        d: vec![3.0; n],
        sub: vec![0.0; n],
        blocks: vec![0; n],
        order: (0..n).rev().collect(),
        vector: vec![7.0; n],
    };
    let shapes = [(0, 1), (1, 0), (1, 2), (2, 1), (128, 127), (128, 129), (128, 1024), (1024, 1024), (0, 1025)];
    let mut all: Vec<Solve> = shapes.map(|(ncol, nrow)| Solve { ncol, nrow, ..sound(0) }).to_vec();
    for off in [-1, 1] {
        let longer = |n: usize| n.saturating_add_signed(off);
        for which in 0..6 {
            let mut s = sound(2);
            match which {
                0 => s.panel.resize(longer(4), 0.5),
                1 => s.d.resize(longer(2), 3.0),
                2 => s.sub.resize(longer(2), 0.0),
                3 => s.blocks.resize(longer(2), 0),
                4 => s.order.resize(longer(2), 2),
                _ => s.vector.resize(longer(2), 7.0),
            }
            all.push(s);
        }
    }
    all.push(Solve { order: vec![0, usize::from(u16::MAX)], ..sound(2) });
    all.into_iter().map(Case::Solve)
}

/// As many columns as are accepted and more, with lists and without; each list one longer and one shorter; a row far
/// out of range; the least and the greatest number.
fn list_bounds() -> impl Iterator<Item = Case> {
    let to = |n: usize| pivot_cases::to(&(0..n).rev().collect::<Vec<_>>(), &vec![0; n]);
    let from = |n: usize| pivot_cases::from(&vec![n as i32; n]);
    let sizes = [(1, 1), (127, 127), (128, 128), (129, 129), (129, 0), (1024, 0), (usize::from(u16::MAX), 2)];
    let mut tos: Vec<ToLapack> = sizes.map(|(ncol, n)| ToLapack { ncol, ..to(n) }).to_vec();
    let mut froms: Vec<FromLapack> = sizes.map(|(ncol, n)| FromLapack { ncol, ..from(n) }).to_vec();
    for off in [-1, 1] {
        let longer = |n: usize| n.saturating_add_signed(off);
        for which in 0..3 {
            let (mut c, mut d) = (to(2), from(2));
            match which {
                0 => (c.order.resize(longer(2), 2), d.list.resize(longer(2), 3)),
                1 => (c.blocks.resize(longer(2), 0), d.order.resize(longer(2), 0)),
                _ => (c.list.resize(longer(2), 0), d.blocks.resize(longer(2), 0)),
            };
            tos.push(c);
            froms.push(d);
        }
    }
    tos.push(ToLapack { order: vec![0, usize::from(u16::MAX)], ..to(2) });
    froms.extend([[i32::MIN, 2], [2, i32::MIN], [2, i32::MAX], [-i32::MAX; 2]].map(|list| pivot_cases::from(&list)));
    tos.into_iter().map(Case::ToLapack).chain(froms.into_iter().map(Case::FromLapack))
}

// ---- bytes

#[derive(Default)]
struct Bytes(Vec<u8>);

impl Bytes {
    fn u32s(&mut self, all: &[u32]) {
        self.0.extend(all.iter().flat_map(|x| x.to_le_bytes()));
    }

    fn counts(&mut self, all: &[usize]) {
        self.0.extend(all.iter().flat_map(|&x| u16::try_from(x).expect("a count too large").to_le_bytes()));
    }

    fn i32s(&mut self, all: &[i32]) {
        self.0.extend(all.iter().flat_map(|x| x.to_le_bytes()));
    }

    fn numbers(&mut self, all: &[f64]) {
        let bits = |x: &f64| if x.is_nan() { 0x7FF8_0000_0000_0000 } else { x.to_bits() };
        self.bits(&all.iter().map(bits).collect::<Vec<_>>());
    }

    fn bits(&mut self, all: &[u64]) {
        self.0.extend(all.iter().flat_map(|x| x.to_le_bytes()));
    }

    fn bytes(&mut self, all: &[u8]) {
        self.0.extend(all);
    }

    fn flags(&mut self, all: &[bool]) {
        self.0.extend(all.iter().map(|&b| u8::from(b)));
    }
}

fn adler32(bytes: &[u8]) -> u32 {
    let (a, b) = bytes.iter().fold((1, 0), |(a, b), &x| ((a + u32::from(x)) % 65521, (a + u32::from(x) + b) % 65521));
    b << 16 | a
}

fn answer(to: &mut Bytes, of: &Answer) {
    let (refused, rounds, counts) = match of {
        Answer::Refused(r) => ([r.number, r.a, r.b], 0, [0; 3]),
        Answer::Accepted { rounds, factored, .. } => ([0; 3], *rounds, factored.inertia),
        Answer::Counts(counts) => ([0; 3], 0, *counts),
        _ => ([0; 3], 0, [0; 3]),
    };
    to.counts(&refused);
    to.counts(&[rounds]);
    to.counts(&counts);
}

fn factor(to: &mut Bytes, f: &Factor, of: &Answer) {
    let s = &f.settings;
    to.counts(&[s.ncol, s.nrow, s.nb, s.limit, usize::from(s.mode.floor().is_some())]);
    to.numbers(&[s.mode.floor().unwrap_or(0.0)]);
    let lengths = f.lengths.clone().unwrap_or_else(|| stated_lengths(s));
    let [panel, d, sub, blocks, lifts, amounts, tests, order, marks, work] = lengths[..] else { unreachable!() };
    assert!([f.panel.len(), panel, work].into_iter().all(|n| n <= ROOM) && order.max(marks) <= ROOM_ROWS);
    assert!([d, sub, blocks, lifts, amounts, tests].into_iter().all(|n| n <= ROOM_COLUMNS));
    to.counts(&[f.panel.len()]);
    to.counts(&lengths);
    to.numbers(&f.panel);
    if let Answer::Accepted { factored: f, marks, .. } = of {
        to.numbers(&f.panel);
        to.numbers(&f.d);
        to.numbers(&f.sub);
        to.flags(&f.blocks);
        to.flags(&f.lifts);
        to.numbers(&f.amounts);
        to.bytes(&f.tests);
        to.counts(&f.order);
        to.flags(marks);
    }
}

fn inertia(to: &mut Bytes, i: &Inertia) {
    let lengths = [i.d.len(), i.sub.len(), i.blocks.len()];
    assert!(lengths.into_iter().all(|n| n <= ROOM_COLUMNS));
    to.counts(&lengths);
    to.numbers(&i.d);
    to.numbers(&i.sub);
    to.bytes(&i.blocks);
}

/// What a call leaves of the panel or the vector that it is given to write.
fn left<'a>(given: &'a [f64], of: &'a Answer) -> &'a [f64] {
    match of {
        Answer::Panel(list) | Answer::Vector(list) => list,
        _ => given,
    }
}

fn assembly(to: &mut Bytes, a: &Assembly, of: &Answer) {
    let lengths = [a.rows.len(), a.cols.len(), a.numbers.len(), a.panel.len()];
    assert!(lengths[..3].iter().all(|&n| n <= ROOM_COLUMNS) && a.panel.len() <= ROOM);
    to.counts(&[a.ncol, a.nrow]);
    to.counts(&lengths);
    to.counts(&a.rows);
    to.counts(&a.cols);
    to.numbers(&a.numbers);
    to.numbers(&a.panel);
    to.numbers(left(&a.panel, of));
}

fn update(to: &mut Bytes, u: &Update, of: &Answer) {
    let (k, rows) = (&u.descendant, &u.place.rows);
    let columns = [k.d.len(), k.sub.len(), k.blocks.len()];
    assert!(rows.len().max(k.rows.len()) <= ROOM_GLOBAL_ROWS && u.panel.len().max(k.panel.len()) <= ROOM);
    assert!(columns.into_iter().all(|n| n <= ROOM_COLUMNS));
    to.counts(&[u.ncol, u.nrow, k.ncol, k.below]);
    to.u32s(&[u.place.first]);
    to.counts(&[rows.len(), u.panel.len(), k.panel.len()]);
    to.counts(&columns);
    to.counts(&[k.rows.len()]);
    to.u32s(rows);
    to.numbers(&u.panel);
    to.numbers(&k.panel);
    to.numbers(&k.d);
    to.numbers(&k.sub);
    to.bytes(&k.blocks);
    to.u32s(&k.rows);
    to.numbers(left(&u.panel, of));
}

fn solve(to: &mut Bytes, s: &Solve, of: &Answer) {
    let lengths = [s.panel.len(), s.d.len(), s.sub.len(), s.blocks.len(), s.order.len(), s.vector.len()];
    assert!(s.panel.len() <= ROOM && lengths[1..].iter().all(|&n| n <= ROOM_COLUMNS));
    to.counts(&[s.ncol, s.nrow]);
    to.counts(&lengths);
    to.numbers(&s.panel);
    to.numbers(&s.d);
    to.numbers(&s.sub);
    to.bytes(&s.blocks);
    to.counts(&s.order);
    to.numbers(&s.vector);
    to.numbers(left(&s.vector, of));
}

fn to_lapack(to: &mut Bytes, c: &ToLapack, of: &Answer) {
    let lengths = [c.order.len(), c.blocks.len(), c.list.len()];
    assert!(lengths.into_iter().all(|n| n <= ROOM_COLUMNS));
    to.counts(&[c.ncol]);
    to.counts(&lengths);
    to.counts(&c.order);
    to.bytes(&c.blocks);
    if let Answer::List(list) = of {
        to.i32s(list);
    }
}

fn from_lapack(to: &mut Bytes, c: &FromLapack, of: &Answer) {
    let lengths = [c.list.len(), c.order.len(), c.blocks.len()];
    assert!(lengths.into_iter().all(|n| n <= ROOM_COLUMNS));
    to.counts(&[c.ncol]);
    to.counts(&lengths);
    to.i32s(&c.list);
    if let Answer::Pivots { order, blocks } = of {
        to.counts(order);
        to.bytes(blocks);
    }
}

/// A call's answer, what it was given, and what it left.
fn call_of(to: &mut Bytes, case: &Case, of: &Answer) {
    answer(to, of);
    match case {
        Case::Factor(f) => factor(to, f, of),
        Case::Inertia(i) => inertia(to, i),
        Case::Assembly(a) => assembly(to, a, of),
        Case::Update(u) => update(to, u, of),
        Case::Solve(s) => solve(to, s, of),
        Case::ToLapack(c) => to_lapack(to, c, of),
        Case::FromLapack(c) => from_lapack(to, c, of),
        _ => unreachable!(),
    }
}

// ---- what is recorded

#[derive(Default)]
struct Recorded<'a> {
    cases: [usize; KINDS],
    bytes: [Bytes; KINDS],
    /// By call, how often each outcome was met.
    met: [BTreeMap<String, usize>; KINDS],
    /// The case to print.
    asked: Option<(&'a str, usize)>,
}

impl Recorded<'_> {
    fn add(&mut self, case: &Case) {
        let of = rules::answer(case);
        let call = match case {
            Case::Factor(_) => 0,
            Case::Inertia(_) => 1,
            Case::Assembly(_) => 2,
            Case::Update(_) => 3,
            Case::Solve(_) => 4,
            Case::Magnitude(_) => 5,
            Case::ToLapack(_) => 6,
            Case::FromLapack(_) => 7,
            _ => unreachable!(),
        };
        if self.asked == Some((CALLS[call], self.cases[call])) {
            println!("{} => {}", lines::case_text(case), lines::answer_text(&of));
        }
        match (case, &of) {
            (Case::Magnitude(bits), Answer::Bits(cleared)) => self.bytes[call].bits(&[*bits, *cleared]),
            _ => call_of(&mut self.bytes[call], case, &of),
        }
        self.cases[call] += 1;
        for name in outcome(case, &of) {
            *self.met[call].entry(name).or_default() += 1;
        }
    }

    /// A line for each outcome. All of them are met, or nothing is recorded.
    fn outcomes(&self) -> String {
        let mut text = String::new();
        for (call, name) in CALLS.into_iter().enumerate() {
            text += &format!("{name}: {} cases\n", self.cases[call]);
            for what in OUTCOMES[call].split('/') {
                let Some(n) = self.met[call].get(what) else { stop(&format!("{name}: no case is {what}")) };
                text += &format!("{n:7} {what}\n");
            }
        }
        text
    }

    fn write(&self, folder: &Path, legend: &str) {
        let (mut file, mut cases) = (Bytes(b"replay 1".to_vec()), Bytes::default());
        cases.counts(&self.cases);
        self.bytes.iter().for_each(|b| cases.bytes(&b.0));
        file.u32s(&[adler32(&cases.0)]);
        file.bytes(&cases.0);
        let line = |(call, n)| format!("{call} {n} replayed, 0 differ\n");
        let stdout: String = CALLS.iter().zip(self.cases).map(line).collect();
        let put = |name: &str, bytes: &[u8]| std::fs::write(folder.join(name), bytes).expect(name);
        put("data/answers", &file.0);
        put("data/LEGEND", legend.as_bytes());
        put("stdout", stdout.as_bytes());
    }
}

/// What a case is counted under: its outcome and, of an accepted factor call or solve, what it met.
fn outcome(case: &Case, of: &Answer) -> Vec<String> {
    match (case, of) {
        (Case::FromLapack(c), Answer::Refused(r)) => {
            let least = c.list.contains(&i32::MIN);
            [vec![format!("refused {}", r.number)], names(&[(least, "refused with the least i32")])].concat()
        }
        (_, Answer::Refused(r)) => vec![format!("refused {}", r.number)],
        (Case::ToLapack(c), Answer::List(list)) => listed("listed", list, &c.order, &c.blocks),
        (Case::FromLapack(c), Answer::Pivots { order, blocks }) => listed("read", &c.list, order, blocks),
        (Case::Factor(f), Answer::Accepted { rounds, factored, marks }) => {
            let s = &f.settings;
            let met = [
                (true, if s.mode.floor().is_some() { "accepted in Lift" } else { "accepted in Fail" }),
                (factored.blocks.contains(&true), "with blocks"),
                (factored.lifts.contains(&true), "with lifts"),
                (*rounds > 0, "with rounds"),
                (*rounds > 1, "with two rounds or more"),
                (marks.contains(&true), "with marks"),
                (s.nb < s.ncol, "with several panels"),
                (s.ncol < s.nrow, "with tail rows"),
                (!factored.order.is_sorted(), "with an exchange"),
            ];
            let has = |number: &u8| factored.tests.contains(number);
            let tests = (0..=4).filter(has).map(|number| format!("with test number {number}"));
            names(&met).into_iter().chain(tests).collect()
        }
        (Case::Solve(s), Answer::Vector(vector)) => {
            let met = [
                (true, "solved"),
                (s.blocks.contains(&1), "with blocks"),
                (!s.order.is_sorted(), "in another order"),
                (vector.iter().any(|x| !x.is_finite()), "not finite in the end"),
            ];
            names(&met)
        }
        (Case::Update(u), _) if !lands(u) => vec!["done, no landing".to_string()],
        (Case::Inertia(_), _) => vec!["counts".to_string()],
        (Case::Magnitude(bits), _) => bits_met(*bits),
        _ => vec!["done".to_string()],
    }
}

/// What a list, and the order and block bytes that it stands for, have.
fn listed(done: &str, list: &[i32], order: &[usize], blocks: &[u8]) -> Vec<String> {
    let block = |k: usize| blocks[k] == 1;
    let columns = 0..order.len();
    names(&[
        (true, done),
        (columns.clone().any(block), "with blocks"),
        (!order.is_sorted(), "with an exchange"),
        (columns.clone().any(|k| block(k) && list[k] != -(k as i32 + 2)), "with an exchange at a block"),
        (done == "listed" && columns.clone().any(|k| block(k) && order[k] != k), "with a first row from elsewhere"),
    ])
}

/// What a magnitude is of.
fn bits_met(bits: u64) -> Vec<String> {
    let x = f64::from_bits(bits);
    let quiet = bits >> 51 & 1 == 1;
    names(&[
        (x.is_sign_negative(), "with a sign"),
        (x == 0.0, "of a zero"),
        (x.is_finite() && x != 0.0, "of another number"),
        (x.is_infinite(), "of an infinity"),
        (x.is_nan() && quiet, "of a quiet not-a-number"),
        (x.is_nan() && !quiet, "of a signalling not-a-number"),
    ])
}

/// The names of what was met.
fn names(met: &[(bool, &str)]) -> Vec<String> {
    met.iter().filter(|m| m.0).map(|m| m.1.to_string()).collect()
}

fn lands(u: &Update) -> bool {
    u.descendant.ncol > 0 && u.descendant.rows.iter().any(|g| u.place.rows[..u.ncol].contains(g))
}
