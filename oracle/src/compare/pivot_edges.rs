//! Calls to LAPACK and from it at the edges, each once: sizes at their bounds and beyond, lengths one off, every small
//! order, list of block bytes and list of pivots, every choice of faults in one call.

use crate::lists::{lists, stretch, MAX, WRAPS};
use oracle::case::*;
use oracle::pivot_cases::{self, from, to};
use oracle::pivots::{self, Pivot};

type Each<'a> = &'a mut dyn FnMut(Case);

// ---- sizes and lengths

/// Rows that are exchanged, without a block.
fn turned(n: usize) -> ToLapack {
    to(&(0..n).rev().collect::<Vec<_>>(), &vec![0; n])
}

/// Blocks throughout, but for the last column of an odd number.
fn paired(n: usize) -> FromLapack {
    let moved = |k: usize| if k + 1 < n { -(k as i32 + 2) } else { k as i32 + 1 };
    from(&(0..n).map(|k| moved(k / 2 * 2)).collect::<Vec<_>>())
}

/// Refusals 1 and 25: every size, over lists of its length where such can be had, each of them one off or as it is.
fn sizes(each: Each) {
    for ncol in [0, 1, 2, 3, 127, 128, 129, 1024, MAX, WRAPS, WRAPS + 2] {
        let lengths = if ncol <= 1024 { vec![ncol] } else { vec![0, 2, 128] };
        for (n, by) in lengths.into_iter().flat_map(|n| lists(&[0, -1, 1], 3).into_iter().map(move |by| (n, by))) {
            let (mut to, mut from) = (ToLapack { ncol, ..turned(n) }, FromLapack { ncol, ..paired(n) });
            stretch(&mut to.order, by[0]);
            stretch(&mut to.blocks, by[1]);
            stretch(&mut to.list, by[2]);
            stretch(&mut from.list, by[0]);
            stretch(&mut from.order, by[1]);
            stretch(&mut from.blocks, by[2]);
            each(Case::ToLapack(to));
            each(Case::FromLapack(from));
        }
    }
}

// ---- every small one

/// Every order of at most four places over the values in and beyond its range, with all bytes that are 0, 1 or 2.
fn orders(each: Each) {
    for n in 0..=4 {
        let bytes = lists(&[0, 1, 2], n);
        let values: Vec<usize> = (0..=n).chain([MAX]).collect();
        for order in lists(&values, n) {
            bytes.iter().for_each(|blocks| each(Case::ToLapack(to(&order, blocks))));
        }
    }
}

/// Every list of at most four numbers in and beyond their range, the least and the greatest i32 among them.
fn numbers(each: Each) {
    for n in 0..=4 {
        let beyond = n as i32 + 1;
        let values: Vec<i32> = (-beyond..=beyond).chain([i32::MIN, i32::MAX]).collect();
        lists(&values, n).iter().for_each(|list| each(Case::FromLapack(from(list))));
    }
}

/// The block patterns of so many columns.
fn patterns(n: usize) -> Vec<Vec<u8>> {
    let parted = |bytes: &Vec<u8>| bytes.last() != Some(&1) && !bytes.windows(2).any(|two| two == [1, 1]);
    lists(&[0, 1], n).into_iter().filter(parted).collect()
}

/// The permutations of so many rows.
fn permutations(n: usize) -> Vec<Vec<usize>> {
    let longer = |order: &Vec<usize>| {
        let row = order.len();
        (0..=row).map(|at| [&order[..at], &[row], &order[at..]].concat()).collect::<Vec<_>>()
    };
    (0..n).fold(vec![Vec::new()], |all, _| all.iter().flat_map(longer).collect())
}

/// The lists that this block pattern can have.
fn lists_of(blocks: &[u8]) -> Vec<Vec<i32>> {
    let n = blocks.len();
    let with = |list: &Vec<i32>, pivot: Pivot, p: usize| [&list[..], &pivot.numbers(p)].concat();
    pivots::by_blocks(blocks).into_iter().fold(vec![Vec::new()], |all, pivot| {
        all.iter().flat_map(|list| (pivot.moved..n).map(move |p| with(list, pivot, p))).collect()
    })
}

/// Every block pattern of at most six columns, with every permutation and with every list that is accepted.
fn sound(each: Each) {
    for n in 0..=6 {
        let orders = permutations(n);
        for blocks in patterns(n) {
            orders.iter().for_each(|order| each(Case::ToLapack(to(order, &blocks))));
            lists_of(&blocks).iter().for_each(|list| each(Case::FromLapack(from(list))));
        }
    }
}

// ---- several faults

/// Every choice of some faults in a call.
fn chosen<T: Clone>(sound: T, faults: &[fn(&mut T)], mut each: impl FnMut(T)) {
    for some in 0..1 << faults.len() {
        let mut c = sound.clone();
        (0..faults.len()).filter(|i| some >> i & 1 == 1).for_each(|i| faults[i](&mut c));
        each(c);
    }
}

/// The order of refusals 1, 25, 26, 16 and 28, and the least place of each.
fn to_faults(each: Each) {
    let faults: [fn(&mut ToLapack); 10] = [
        |c| c.ncol = 129,
        |c| c.order.push(6),
        |c| c.list.push(0),
        |c| c.order[5] = 6,
        |c| c.order[4] = c.order[0],
        |c| c.blocks[3] = 2,
        |c| c.blocks[5] = 1,
        |c| c.blocks[1] = 1,
        // the first rows of the two blocks
        |c| c.order.swap(0, 1),
        |c| c.order.swap(2, 5),
    ];
    chosen(to(&[0, 1, 2, 3, 4, 5], &[1, 0, 1, 0, 0, 0]), &faults, |c| each(Case::ToLapack(c)));
}

/// The order of refusals 1, 25, 30 and 29, and the least column of a fault.
fn from_faults(each: Each) {
    let faults: [fn(&mut FromLapack); 12] = [
        |c| c.ncol = 129,
        |c| c.blocks.push(0),
        |c| _ = c.order.pop(),
        |c| c.list[0] = 0,
        |c| c.list[0] = -c.list[1],
        |c| c.list[1] = -2,
        |c| c.list[2] = -2,
        |c| c.list[2] = -c.list[2],
        |c| c.list[3] = 3,
        |c| c.list[3] = i32::MIN,
        |c| c.list[4] = 7,
        |c| c.list[5] = -5,
    ];
    chosen(from(&[4, -3, -3, 6, -6, -6]), &faults, |c| each(Case::FromLapack(c)));
}

/// Every case that needs no seed.
pub fn each_once(each: Each) {
    pivot_cases::stations().into_iter().for_each(|station| each(station.case));
    pivot_cases::telling().into_iter().for_each(|(_, case)| each(case));
    sizes(each);
    orders(each);
    numbers(each);
    sound(each);
    to_faults(each);
    from_faults(each);
}
