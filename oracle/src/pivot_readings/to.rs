//! Readings of the call to LAPACK that look right and are wrong.

use crate::case::{Refusal, ToLapack};
use crate::pivots::*;
use crate::rules::{refuse_at, refuse_if, Checked, MAX_COL};

type Named = (&'static str, To);

/// Every wrong reading of the call to LAPACK.
pub fn wrong() -> Vec<Named> {
    [checks(), other_bytes(), places(), first_rows(), partners(), numbers()].concat()
}

fn checked(name: &'static str, checked: fn(&ToLapack) -> Checked) -> Named {
    (name, To { checked, ..TO })
}

/// The tests of order and bytes after those of sizes.
fn then_by(c: &ToLapack, tests: [fn(&ToLapack) -> Checked; 2]) -> Checked {
    width(c.ncol)?;
    to_lengths(c)?;
    tests.iter().try_for_each(|test| test(c))
}

/// 28, if the bytes that cannot be are passed over.
fn first_rows_by(c: &ToLapack) -> Checked {
    let mut blocks = c.blocks.clone();
    for k in 0..c.ncol {
        let second = k > 0 && blocks[k - 1] == 1;
        blocks[k] = u8::from(blocks[k] == 1 && !second && k + 1 < c.ncol);
    }
    TO.answer(&ToLapack { blocks, ..c.clone() }).map(|_| ())
}

fn checks() -> Vec<Named> {
    vec![
        checked("no columns refused", |c| {
            refuse_if(c.ncol == 0, 1)?;
            (TO.checked)(c)
        }),
        checked("128 columns refused", |c| {
            refuse_if(c.ncol >= MAX_COL, 1)?;
            (TO.checked)(c)
        }),
        checked("129 columns taken", |c| {
            refuse_if(c.ncol > MAX_COL + 1, 1)?;
            to_lengths(c)?;
            order(c)?;
            blocks(c)
        }),
        checked("25 before 1", |c| {
            to_lengths(c)?;
            (TO.checked)(c)
        }),
        checked("an order of more rows taken", |c| {
            let order = c.order[..c.order.len().min(c.ncol)].to_vec();
            (TO.checked)(&ToLapack { order, ..c.clone() })
        }),
        checked("a longer list taken", |c| {
            let list = c.list[..c.list.len().min(c.ncol)].to_vec();
            (TO.checked)(&ToLapack { list, ..c.clone() })
        }),
        checked("16 before 26", |c| then_by(c, [blocks, order])),
        checked("28 before 16", |c| {
            then_by(c, [order, first_rows_by])?;
            blocks(c)
        }),
    ]
}

fn bytes_cut(c: &ToLapack) -> ToLapack {
    ToLapack { blocks: c.blocks[..c.blocks.len().min(c.ncol)].to_vec(), ..c.clone() }
}

/// The last byte, which is 0 wherever it is accepted, may be missing.
fn bytes_filled(c: &ToLapack) -> ToLapack {
    let missing = (c.blocks.len() + 1 == c.ncol).then_some(0);
    ToLapack { blocks: c.blocks.iter().copied().chain(missing).collect(), ..c.clone() }
}

/// Block bytes of another length.
fn other_bytes() -> Vec<Named> {
    vec![
        (
            "longer block bytes taken",
            To { checked: |c| (TO.checked)(&bytes_cut(c)), pivots: |c| (TO.pivots)(&bytes_cut(c)), ..TO },
        ),
        (
            "block bytes taken without the last",
            To { checked: |c| (TO.checked)(&bytes_filled(c)), pivots: |c| (TO.pivots)(&bytes_filled(c)), ..TO },
        ),
    ]
}

fn comes_again(c: &ToLapack, k: usize) -> bool {
    out_of_range(c, k) || c.order[k + 1..].contains(&c.order[k])
}

fn bad_or_after_one(c: &ToLapack, k: usize) -> bool {
    c.blocks[k] > 1 || c.blocks[k] == 1 && (k + 1 == c.ncol || k > 0 && c.blocks[k - 1] == 1)
}

/// The least position that is so.
fn least(c: &ToLapack, so: fn(&ToLapack, usize) -> bool) -> Option<usize> {
    (0..c.ncol).find(|&k| so(c, k))
}

/// Which place 26 and 16 name.
fn places() -> Vec<Named> {
    vec![
        checked("26: places out of range before repeated ones", |c| {
            let order = |c: &ToLapack| refuse_at(least(c, out_of_range).or_else(|| least(c, repeats)), 26);
            then_by(c, [order, blocks])
        }),
        checked("26: repeated places before those out of range", |c| {
            let order = |c: &ToLapack| refuse_at(least(c, repeats).or_else(|| least(c, out_of_range)), 26);
            then_by(c, [order, blocks])
        }),
        checked("26: the earlier of two equal places", |c| {
            then_by(c, [|c| refuse_at(least(c, comes_again), 26), blocks])
        }),
        checked("16: the second of two ones", |c| then_by(c, [order, |c| refuse_at(least(c, bad_or_after_one), 16)])),
    ]
}

/// Where 28 is met, and what it names.
fn first_rows() -> Vec<Named> {
    let in_place = |name, in_place| (name, To { in_place, ..TO });
    vec![
        in_place("28 never", |_, _, _| Ok(())),
        in_place("28 where order(k) is not k", |c, pivot, _| {
            (TO.in_place)(c, pivot, &at_first(c.ncol)) // as if no row had moved
        }),
        in_place("28 after the block's own exchange", |c, pivot, rows| {
            let mut rows = rows.to_vec();
            let p = place(&rows, c.order[pivot.moved]);
            rows.swap(pivot.moved, p);
            (TO.in_place)(c, pivot, &rows)
        }),
        in_place("28 at a 1x1 too", |c, pivot, rows| {
            refuse_at((rows[pivot.first] != c.order[pivot.first]).then_some(pivot.first), 28)
        }),
        in_place("28 for a block's second row too", |c, pivot, rows| {
            (TO.in_place)(c, pivot, rows)?;
            refuse_at((pivot.is_block() && rows[pivot.moved] != c.order[pivot.moved]).then_some(pivot.first), 28)
        }),
        in_place("28 at the second position", |c, pivot, rows| {
            (TO.in_place)(c, pivot, rows).map_err(|at| Refusal { a: at.a + 1, ..at })
        }),
        in_place("28 at the row and not at the position", |c, pivot, rows| {
            (TO.in_place)(c, pivot, rows).map_err(|at| Refusal { a: c.order[at.a], ..at })
        }),
    ]
}

/// The order read the other way: at each row's place the position where it comes to stand.
fn turned(c: &ToLapack) -> ToLapack {
    ToLapack { order: (0..c.ncol).map(|row| place(&c.order, row)).collect(), ..c.clone() }
}

/// What is exchanged with what.
fn partners() -> Vec<Named> {
    vec![
        (
            "the order the wrong way round",
            To {
                in_place: |c, pivot, rows| (TO.in_place)(&turned(c), pivot, rows),
                partner: |c, e, rows| (TO.partner)(&turned(c), e, rows),
                ..TO
            },
        ),
        ("the places before any exchange", To { partner: |c, e, _| c.order[e], ..TO }),
        ("a block moves its first column", To { moved: |pivot| pivot.first, ..TO }),
        ("the pivots by falling column", To { pivots: |c| (TO.pivots)(c).into_iter().rev().collect(), ..TO }),
        (
            "the rows between move on by one",
            To {
                exchanged: |rows, e, p| {
                    let row = rows.remove(p);
                    rows.insert(e, row);
                },
                ..TO
            },
        ),
    ]
}

/// An order's rows as a pivot's numbers.
fn as_numbers(order: &[usize], pivot: Pivot) -> Vec<i32> {
    let sign = if pivot.is_block() { -1 } else { 1 };
    order[pivot.first..=pivot.moved].iter().map(|&row| sign * from_one(row)).collect()
}

/// What the list has of it.
fn numbers() -> Vec<Named> {
    let numbers = |name, numbers| (name, To { numbers, ..TO });
    vec![
        numbers("the order as the list", |c, pivot, _| as_numbers(&c.order, pivot)),
        numbers("the inverse order as the list", |c, pivot, _| as_numbers(&turned(c).order, pivot)),
        numbers("numbers from 0", |c, pivot, p| {
            (TO.numbers)(c, pivot, p).into_iter().map(|number| number - number.signum()).collect()
        }),
        numbers("a positive number at a block", |_, pivot, p| vec![from_one(p); if pivot.is_block() { 2 } else { 1 }]),
        numbers("a negative number at a block's first column alone", |c, pivot, p| {
            let mut list = (TO.numbers)(c, pivot, p);
            list.iter_mut().skip(1).for_each(|number| *number = -*number);
            list
        }),
        numbers("a negative number at a block's second column alone", |c, pivot, p| {
            let mut list = (TO.numbers)(c, pivot, p);
            list[0] = list[0].abs();
            list
        }),
        numbers("a block's first column with its own number, as in LAPACK's rook", |c, pivot, p| {
            let mut list = (TO.numbers)(c, pivot, p);
            list[0] = if pivot.is_block() { -from_one(pivot.first) } else { list[0] };
            list
        }),
    ]
}
