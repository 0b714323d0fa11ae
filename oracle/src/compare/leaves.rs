//! The library's leaves beside the reference's, by bits; but for the magnitude
//! all not-a-numbers count as one. Left out: the maximum of two zeros of unlike
//! sign. Rust leaves open which it is; the port's definition says the first.

mod counts;

use counts::{Counts, Words};
use misuktaan::leaves;
use oracle::magnitude;
use oracle::random::Rng;
use rslab::reach;
use std::hint::black_box;
use std::time::Instant;

/// A leaf of one number: its name, the port's answer, the reference's.
type One = (&'static str, fn(f64) -> f64, fn(f64) -> f64);

/// A leaf of two.
type Two = (&'static str, fn(f64, f64) -> f64, fn(f64, f64) -> f64);

fn reference(name: &str, a: f64, b: f64) -> f64 {
    reach::leaf(name, a, b).expect("no such leaf")
}

fn as_number(b: bool) -> f64 {
    f64::from(u8::from(b))
}

const ONES: [One; 4] = [
    ("is_finite", |x| as_number(leaves::is_finite(x)), |x| as_number(x.is_finite())),
    ("square", leaves::square, |x| reference("square", x, 0.0)),
    ("reciprocal", leaves::reciprocal, |x| reference("reciprocal", x, 0.0)),
    ("sqrt", leaves::sqrt, |x| reference("sqrt", x, 0.0)),
];

/// The one that says which bits a not-a-number has. It goes by `leaves::magnitude_bits`.
const EXACT: [One; 1] = [("magnitude", leaves::magnitude, |x| reference("magnitude", x, 0.0))];

// a lift's second number is its floor
const TWOS: [Two; 2] = [
    ("maximum", leaves::maximum, |a, b| reference("maximum", a, b)),
    ("lift", |d, floor| leaves::lift(floor, d), |d, floor| reference("lift", d, floor)),
];

const FRACTION: u64 = (1 << 52) - 1;

// ---- numbers

/// Every exponent with the fractions at its ends and at its middle, both signs:
/// zeros, subnormals, powers of two and their neighbours, infinities, quiet and
/// signalling not-a-numbers.
fn corners() -> Vec<f64> {
    let middle = 1 << 51;
    let fractions = [0, 1, 2, middle - 1, middle, middle + 1, FRACTION - 1, FRACTION];
    let of = |e: u64| fractions.map(|f| [(e << 52) | f, (1 << 63) | (e << 52) | f]);
    (0..2048).flat_map(of).flatten().map(f64::from_bits).collect()
}

/// The corners that meet each other: zeros and subnormals, the exponents by 1 and
/// at the ends, infinities and not-a-numbers, and some of every size between.
fn paired(corners: &[f64]) -> Vec<f64> {
    let by_exponent: Vec<&[f64]> = corners.chunks(16).collect();
    let whole = [0, 1, 2, 1022, 1023, 1024, 2045, 2046, 2047].map(|e: usize| by_exponent[e]).concat();
    corners.iter().step_by(97).copied().chain(whole).collect()
}

/// x and the numbers beside it.
fn around(x: f64) -> [f64; 3] {
    let bits = x.to_bits();
    [bits.wrapping_sub(1), bits, bits.wrapping_add(1)].map(f64::from_bits)
}

/// Whole numbers and halves, their squares, and what stands beside these.
fn squares() -> Vec<f64> {
    let of = |n: u32| [f64::from(n), f64::from(n) + 0.5, f64::from(n).powi(2), (f64::from(n) + 0.5).powi(2)];
    (1..=150_000).flat_map(of).flat_map(around).collect()
}

/// A number by the square of a root: the root has 27 digits, or stands in the
/// middle of two numbers of 53. The square is cut to 53 digits.
fn near_a_square(rng: &mut Rng) -> f64 {
    let root = if rng.once_in(3) { rng.next() >> 37 | 1 << 26 } else { rng.next() >> 11 | 1 << 53 | 1 };
    let square = u128::from(root) * u128::from(root);
    let cut = 128 - square.leading_zeros() - 53;
    // a power of the square's own parity, so that the root of the whole has the root's digits
    let power = rng.within(2, 2045) as u64;
    let power = power ^ u64::from((power + u64::from(cut)) % 2 == 0);
    let digits = (square >> cut) as u64 & FRACTION;
    around(f64::from_bits(power << 52 | digits))[rng.within(0, 2)]
}

/// Any bits at all; a number of no sign; a number by a square.
fn any(rng: &mut Rng) -> f64 {
    match rng.within(0, 3) {
        0 => f64::from_bits(rng.next()),
        1 => f64::from_bits(rng.next() >> 1),
        _ => near_a_square(rng),
    }
}

/// A second number: the first, its negative, its neighbours, one of its
/// exponent, or any.
fn partner(rng: &mut Rng, x: f64) -> f64 {
    match rng.within(0, 7) {
        0 => x,
        1 => -x,
        2 | 3 => around(x)[rng.within(0, 2)],
        4 | 5 => f64::from_bits(x.to_bits() & !FRACTION | rng.next() & FRACTION),
        _ => any(rng),
    }
}

// ---- the comparison

fn same(a: f64, b: f64) -> bool {
    a.to_bits() == b.to_bits() || (a.is_nan() && b.is_nan())
}

fn exactly_same(a: f64, b: f64) -> bool {
    a.to_bits() == b.to_bits()
}

fn each(counts: &mut Counts, x: f64, leaves: &[One], same: fn(f64, f64) -> bool) {
    for (name, ours, theirs) in leaves {
        let (got, must) = (ours(x), theirs(x));
        let line =
            || format!("{name} of {:016X}: {:016X}, must be {:016X}", x.to_bits(), got.to_bits(), must.to_bits());
        counts.add(same(got, must), line);
    }
}

fn one(counts: &mut Counts, x: f64) {
    each(counts, x, &ONES, same);
    each(counts, x, &EXACT, exactly_same);
}

fn two(counts: &mut Counts, a: f64, b: f64) {
    for (name, ours, theirs) in TWOS {
        let either = name == "maximum" && a == 0.0 && b == 0.0 && a.to_bits() != b.to_bits();
        if !either {
            let (got, must) = (ours(a, b), theirs(a, b));
            let [a, b, got, must] = [a, b, got, must].map(f64::to_bits);
            let line = || format!("{name} of {a:016X} {b:016X}: {got:016X}, must be {must:016X}");
            counts.add(same(f64::from_bits(got), f64::from_bits(must)), line);
        }
    }
}

/// The corners and the squares, then so many random numbers, each also with a second one.
fn compare(counts: &mut Counts, seed: u64, count: usize) {
    let (corners, squares) = (corners(), squares());
    for &x in corners.iter().chain(&squares) {
        one(counts, x);
        around(x).into_iter().for_each(|y| two(counts, x, y));
        two(counts, x, -x);
    }
    let paired = paired(&corners);
    for &a in &paired {
        paired.iter().for_each(|&b| two(counts, a, b));
    }
    let mut rng = Rng::new(seed);
    for _ in 0..count {
        let x = any(&mut rng);
        one(counts, x);
        let y = partner(&mut rng, x);
        two(counts, x, y);
    }
    println!("{} numbers, {count} of them random", corners.len() + squares.len() + count);
    println!("left out: the maximum of two zeros of unlike sign");
}

/// Nanoseconds a call, over finite numbers above zero of every exponent: the least of a hundred turns.
fn time(f: impl Fn(f64) -> f64) -> f64 {
    let mut rng = Rng::new(1);
    let finite: Vec<f64> = (0..10_000).map(|_| f64::from_bits(rng.next() % 0x7FF0_0000_0000_0000)).collect();
    let turn = |_| {
        let begun = Instant::now();
        finite.iter().for_each(|&x| _ = black_box(f(black_box(x))));
        begun.elapsed().as_nanos()
    };
    (0..100).map(turn).min().unwrap() as f64 / finite.len() as f64
}

fn main() {
    let untold: Vec<_> = magnitude::told().into_iter().filter(|of| of.1 == 0).collect();
    assert!(untold.is_empty(), "no bits tell {untold:?}");
    let (words, seed) = Words::read();
    let mut counts = Counts::default();
    compare(&mut counts, seed, words.count(1, 10_000_000));
    println!("a square root takes {:.1} ns, f64::sqrt {:.1} ns", time(leaves::sqrt), time(f64::sqrt));
    counts.end("compared", "differ")
}
