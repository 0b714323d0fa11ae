//! Hand-made cases of the calls to LAPACK and from it: stations, each with its
//! answer worked out by hand, and cases that tell the text from a wrong reading of
//! it (`pivot_readings/`).

use crate::case::*;

/// What the buffers hold before a call, which no call writes.
pub const HELD_PLACE: usize = 999;
pub const HELD_BYTE: u8 = 9;
pub const HELD_NUMBER: i32 = 777;

/// A call to LAPACK with an order and block bytes of one length.
pub fn to(order: &[usize], blocks: &[u8]) -> ToLapack {
    let ncol = order.len();
    ToLapack { ncol, order: order.to_vec(), blocks: blocks.to_vec(), list: vec![HELD_NUMBER; ncol] }
}

/// A call from LAPACK.
pub fn from(list: &[i32]) -> FromLapack {
    let ncol = list.len();
    FromLapack { ncol, list: list.to_vec(), order: vec![HELD_PLACE; ncol], blocks: vec![HELD_BYTE; ncol] }
}

// ---- stations

/// A case and the answer that it must have.
pub struct Station {
    pub name: &'static str,
    pub case: Case,
    pub answer: Answer,
}

fn station(name: &'static str, case: Case, answer: Answer) -> Station {
    Station { name, case, answer }
}

/// The same forth and back.
fn both(name: &'static str, order: &[usize], blocks: &[u8], list: &[i32]) -> [Station; 2] {
    let back = Answer::Pivots { order: order.to_vec(), blocks: blocks.to_vec() };
    [
        station(name, Case::ToLapack(to(order, blocks)), Answer::List(list.to_vec())),
        station(name, Case::FromLapack(from(list)), back),
    ]
}

fn refused(number: usize, a: usize) -> Answer {
    Answer::Refused(Refusal { number, a, b: 0 })
}

fn to_refused(name: &'static str, c: ToLapack, number: usize, a: usize) -> Station {
    station(name, Case::ToLapack(c), refused(number, a))
}

fn from_refused(name: &'static str, c: FromLapack, number: usize, a: usize) -> Station {
    station(name, Case::FromLapack(c), refused(number, a))
}

/// Those of docs/SCOPE.md, "Stations", and corner cases.
pub fn stations() -> Vec<Station> {
    let turned: Vec<usize> = (0..128).rev().collect();
    // rows k and 127 − k trade places in the first half, and are where they must be in the second
    let halves: Vec<i32> = (0..128).map(|k| if k < 64 { 128 - k } else { k + 1 }).collect();
    let accepted = [
        both("no columns", &[], &[], &[]),
        both("order 0, list 1", &[0], &[0], &[1]),
        both("order 2 0 1, list 3 3 3", &[2, 0, 1], &[0, 0, 0], &[3, 3, 3]),
        both("order 1 2 0, list 2 3 3", &[1, 2, 0], &[0, 0, 0], &[2, 3, 3]),
        both("order 2 1 0, list 3 -3 -3", &[2, 1, 0], &[0, 1, 0], &[3, -3, -3]),
        both("order 1 0 2, list 2 -3 -3", &[1, 0, 2], &[0, 1, 0], &[2, -3, -3]),
        both("order 0 1, list -2 -2", &[0, 1], &[1, 0], &[-2, -2]),
        both("order 0 2 1, list -3 -3 3", &[0, 2, 1], &[1, 0, 0], &[-3, -3, 3]),
        both("order 0 3 2 1, list -4 four times", &[0, 3, 2, 1], &[1, 0, 1, 0], &[-4, -4, -4, -4]),
        both("128 columns", &turned, &[0; 128], &halves),
    ];
    accepted.into_iter().flatten().chain(to_refusals()).chain(from_refusals()).collect()
}

fn to_refusals() -> Vec<Station> {
    let two = || to(&[1, 0], &[0, 0]);
    vec![
        to_refused("129 columns", to(&[0; 129], &[0; 129]), 1, 0),
        to_refused("more columns than an order has", ToLapack { ncol: 129, ..two() }, 1, 0),
        to_refused("a long order", ToLapack { order: vec![1, 0, 2], ..two() }, 25, 0),
        to_refused("short block bytes", ToLapack { blocks: vec![0], ..two() }, 25, 0),
        to_refused("a short list", ToLapack { list: vec![HELD_NUMBER], ..two() }, 25, 0),
        to_refused("order 1 0 0, block bytes 0 1 1", to(&[1, 0, 0], &[0, 1, 1]), 26, 2),
        to_refused("order 1 0 2, block bytes 1 1 0", to(&[1, 0, 2], &[1, 1, 0]), 16, 0),
        to_refused("order 1 2 0, a block at 0", to(&[1, 2, 0], &[1, 0, 0]), 28, 0),
        to_refused("order 0 2 1, a block at 1", to(&[0, 2, 1], &[0, 1, 0]), 28, 1),
    ]
}

fn from_refusals() -> Vec<Station> {
    let two = || from(&[1, 2]);
    vec![
        from_refused("129 columns", from(&[0; 129]), 1, 0),
        from_refused("more columns than a list has", FromLapack { ncol: 129, ..two() }, 1, 0),
        from_refused("a long list", FromLapack { list: vec![1, 2, 3], ..two() }, 25, 0),
        from_refused("a short order", FromLapack { order: vec![HELD_PLACE], ..two() }, 25, 0),
        from_refused("long block bytes", FromLapack { blocks: vec![0; 3], ..two() }, 25, 0),
        from_refused("list -2 -2 -3", from(&[-2, -2, -3]), 30, 2),
        from_refused("list 1 -1 -2", from(&[1, -1, -2]), 30, 1),
        from_refused("list 3 1 3", from(&[3, 1, 3]), 29, 1),
        from_refused("list -1 -1", from(&[-1, -1]), 29, 0),
        from_refused("list -2147483648 twice", from(&[i32::MIN; 2]), 29, 0),
        from_refused("list 0", from(&[0]), 29, 0),
        from_refused("list 1 3", from(&[1, 3]), 29, 1),
    ]
}

// ---- telling cases

/// For each wrong reading cases that it answers otherwise.
pub fn telling() -> Vec<(&'static str, Case)> {
    let to = [to_checks(), to_lists()].into_iter().flatten().map(|(name, c)| (name, Case::ToLapack(c)));
    let from = [from_checks(), from_lists()].into_iter().flatten().map(|(name, c)| (name, Case::FromLapack(c)));
    to.chain(from).collect()
}

fn to_checks() -> Vec<(&'static str, ToLapack)> {
    let any: Vec<usize> = (0..129).collect();
    let two = || to(&[0, 1], &[0, 0]);
    vec![
        ("no columns taken", to(&[], &[])),
        ("128 columns taken", to(&any[..128], &[0; 128])),
        ("1 for 129 columns", to(&any, &[0; 129])),
        ("1 before 25", ToLapack { ncol: 129, ..two() }),
        ("25 for an order of more rows", ToLapack { order: vec![0, 1, 2], ..two() }),
        ("25 for a longer list", ToLapack { list: vec![HELD_NUMBER; 3], ..two() }),
        ("25 for block bytes of more columns", ToLapack { blocks: vec![0; 3], ..two() }),
        ("25 for block bytes without the last", ToLapack { blocks: vec![0], ..two() }),
        ("26 before 16", to(&[0, 0], &[2, 0])),
        ("16 before 28", to(&[1, 0, 2], &[1, 0, 1])),
        ("26: repeated, then out of range", to(&[1, 1, 3], &[0; 3])),
        ("26: out of range, then repeated", to(&[3, 1, 1], &[0; 3])),
        ("26: the later of two", to(&[0, 2, 2], &[0; 3])),
        ("16: the earlier of two ones", to(&[0, 1, 2], &[1, 1, 0])),
    ]
}

fn to_lists() -> Vec<(&'static str, ToLapack)> {
    vec![
        ("a row that was moved before", to(&[1, 2, 0], &[0; 3])),
        ("rows that trade places", to(&[2, 0, 1], &[0; 3])),
        ("a 1x1's row is brought to its place", to(&[1, 0], &[0, 0])),
        ("a block without an exchange", to(&[0, 1], &[1, 0])),
        ("a block with an exchange", to(&[0, 2, 1], &[1, 0, 0])),
        ("a block at a later column", to(&[0, 1, 3, 2], &[0, 1, 0, 0])),
        ("a block's first row from elsewhere", to(&[1, 0, 2], &[0, 1, 0])),
        ("28 for two rows of a block that trade places", to(&[1, 0], &[1, 0])),
        ("28 at a later column", to(&[0, 1, 3, 2], &[0, 0, 1, 0])),
        ("28 for a first row that went away", to(&[2, 0, 1, 3], &[0, 1, 0, 0])),
    ]
}

fn from_checks() -> Vec<(&'static str, FromLapack)> {
    let own: Vec<i32> = (1..=129).collect();
    let two = || from(&[1, 2]);
    vec![
        ("no columns taken", from(&[])),
        ("128 columns taken", from(&own[..128])),
        ("1 for 129 columns", from(&own)),
        ("1 before 25", FromLapack { ncol: 129, ..two() }),
        ("25 for a longer list", FromLapack { list: vec![1, 2, 3], ..two() }),
        ("25 for an order of more rows", FromLapack { order: vec![HELD_PLACE; 3], ..two() }),
        ("25 for block bytes of more columns", FromLapack { blocks: vec![HELD_BYTE; 3], ..two() }),
        ("25 for block bytes without the last", FromLapack { blocks: vec![HELD_BYTE], ..two() }),
    ]
}

fn from_lists() -> Vec<(&'static str, FromLapack)> {
    let (least, greatest) = (i32::MIN, i32::MAX);
    vec![
        ("numbers from 1", from(&[1, 2])),
        ("exchanges by rising column", from(&[3, 3, 3])),
        ("rows that trade places", from(&[3, 2, 3])),
        ("a block without an exchange", from(&[-2, -2])),
        ("a block with an exchange", from(&[-3, -3, 3])),
        ("a block at the end", from(&[1, -3, -3])),
        ("29 for 0", from(&[2, 0])),
        ("29 for a number beyond ncol", from(&[3, 2])),
        ("29 for a pair's number beyond ncol", from(&[-3, -3])),
        ("29 for a number before the column", from(&[2, 1])),
        ("29 for a pair's own first column", from(&[-1, -1])),
        ("29 for a pair's own first column, later", from(&[1, -2, -2])),
        ("30 before 29 at a column", from(&[-1, -2])),
        ("29 before a later 30", from(&[0, -2])),
        ("30 before a later 29", from(&[-2, -3, 0])),
        ("30 for two numbers that differ", from(&[-2, -3, 3])),
        ("30 for numbers of either sign", from(&[-2, 2])),
        ("30 for the last", from(&[1, -2])),
        ("30 for a third of the same", from(&[-3, -3, -3])),
        ("two blocks of one number", from(&[-4, -4, -4, -4])),
        ("30 for the least number alone", from(&[least])),
        ("30 for the least number beside the next", from(&[least, -greatest])),
        ("29 for the least number twice", from(&[least, least])),
        ("29 for the greatest number", from(&[greatest])),
    ]
}
