//! Readings of the call from LAPACK that look right and are wrong.

use crate::case::{FromLapack, Refusal};
use crate::pivots::*;
use crate::rules::{refuse_at, refuse_if, Checked, MAX_COL};

type Named = (&'static str, From);

/// Every wrong reading of the call from LAPACK.
pub fn wrong() -> Vec<Named> {
    [checks(), ranges(), pairs(), least_numbers(), walks(), arrangements(), bytes()].concat()
}

fn checks() -> Vec<Named> {
    let checked = |name, checked| (name, From { checked, ..FROM });
    vec![
        checked("no columns refused", |c| {
            refuse_if(c.ncol == 0, 1)?;
            (FROM.checked)(c)
        }),
        checked("128 columns refused", |c| {
            refuse_if(c.ncol >= MAX_COL, 1)?;
            (FROM.checked)(c)
        }),
        checked("129 columns taken", |c| {
            refuse_if(c.ncol > MAX_COL + 1, 1)?;
            from_lengths(c)
        }),
        checked("25 before 1", |c| {
            from_lengths(c)?;
            (FROM.checked)(c)
        }),
        checked("a longer list taken", |c| {
            let list = c.list[..c.list.len().min(c.ncol)].to_vec();
            (FROM.checked)(&FromLapack { list, ..c.clone() })
        }),
        checked("an order of more rows taken", |c| {
            let order = c.order[..c.order.len().min(c.ncol)].to_vec();
            (FROM.checked)(&FromLapack { order, ..c.clone() })
        }),
        checked("longer block bytes taken", |c| {
            let blocks = c.blocks[..c.blocks.len().min(c.ncol)].to_vec();
            (FROM.checked)(&FromLapack { blocks, ..c.clone() })
        }),
        checked("block bytes taken without the last", |c| {
            let missing = (c.blocks.len() + 1 == c.ncol).then_some(0);
            let blocks = c.blocks.iter().copied().chain(missing).collect();
            (FROM.checked)(&FromLapack { blocks, ..c.clone() })
        }),
    ]
}

/// The rows by the exchanges that have a partner; the others leave them.
fn where_it_can(ncol: usize, exchanges: &[Exchange]) -> Vec<usize> {
    let held: Vec<Exchange> = exchanges.iter().copied().filter(|&(_, p)| p < ncol).collect();
    (FROM.order)(ncol, &held)
}

type Walked = fn(&FromLapack) -> Result<Vec<Exchange>, Refusal>;

/// Other faults, so that a partner may be none.
fn walked(name: &'static str, walked: Walked) -> Named {
    (name, From { walked, order: where_it_can, ..FROM })
}

/// 30, then 29 unless the number is let through.
fn but_for(c: &FromLapack, k: usize, let_through: bool) -> Checked {
    pair(c, k)?;
    if let_through {
        Ok(())
    } else {
        number(c, k)
    }
}

/// What 29 refuses.
fn ranges() -> Vec<Named> {
    vec![
        walked("a number of 0 let through", |c| walk(c, |c, k| but_for(c, k, row(c, k) == 0))),
        walked("a number beyond ncol let through", |c| walk(c, |c, k| but_for(c, k, row(c, k) > c.ncol as i64))),
        walked("a number before the column let through", |c| {
            walk(c, |c, k| but_for(c, k, (1..=c.ncol as i64).contains(&row(c, k))))
        }),
        walked("a pair held to its first column", |c| {
            walk(c, |c, k| but_for(c, k, c.list[k] < 0 && row(c, k) == k as i64 + 1))
        }),
        walked("the moved column's own number refused", |c| {
            walk(c, |c, k| {
                pair(c, k)?;
                number(c, k)?;
                refuse_at((row(c, k) == pivot_at(c, k).moved as i64 + 1).then_some(k), 29)
            })
        }),
        walked("numbers from 0", |c| {
            let later = |&number: &i32| number.saturating_add(if number < 0 { -1 } else { 1 });
            (FROM.walked)(&FromLapack { list: c.list.iter().map(later).collect(), ..c.clone() })
        }),
    ]
}

/// What 30 refuses.
fn pairs() -> Vec<Named> {
    vec![
        walked("a pair whose numbers differ taken by the first", |c| {
            walk(c, |c, k| {
                refuse_at((c.list[k] < 0 && k + 1 == c.ncol).then_some(k), 30)?;
                number(c, k)
            })
        }),
        walked("a pair by magnitudes, whatever its second's sign", |c| {
            walk(c, |c, k| {
                let alike = k + 1 < c.ncol && row(c, k + 1) == row(c, k);
                refuse_at((c.list[k] < 0 && !alike).then_some(k), 30)?;
                number(c, k)
            })
        }),
        walked("a negative that stands last taken as a 1x1", |c| match (FROM.walked)(c) {
            Err(Refusal { number: 30, a, .. }) if a + 1 == c.ncol => {
                let mut list = c.list.clone();
                list[a] = list[a].saturating_abs();
                (FROM.walked)(&FromLapack { list, ..c.clone() })
            }
            other => other,
        }),
        walked("a negative like the one before it not refused with 30", |c| {
            walk(c, |c, k| {
                let alike = k > 0 && c.list[k - 1] == c.list[k];
                if alike {
                    number(c, k)
                } else {
                    pair(c, k).and_then(|()| number(c, k))
                }
            })
        }),
    ]
}

/// A list with another number for the least i32.
fn least_as(c: &FromLapack, other: i32) -> FromLapack {
    let list = c.list.iter().map(|&number| if number == i32::MIN { other } else { number }).collect();
    FromLapack { list, ..c.clone() }
}

/// What the least i32 is.
fn least_numbers() -> Vec<Named> {
    vec![
        walked("the least number not taken for a negative", |c| (FROM.walked)(&least_as(c, i32::MAX))),
        walked("the least number's magnitude one less", |c| (FROM.walked)(&least_as(c, -i32::MAX))),
        walked("the least number not taken to be beyond ncol", |c| {
            walk(c, |c, k| but_for(c, k, c.list[k] == i32::MIN))
        }),
    ]
}

/// In which order faults are looked for, and what they name.
fn walks() -> Vec<Named> {
    vec![
        walked("29 before 30 at a column", |c| {
            walk(c, |c, k| {
                number(c, k)?;
                pair(c, k)
            })
        }),
        walked("every 30 before any 29", |c| {
            walk(c, pair)?;
            (FROM.walked)(c)
        }),
        walked("every 29 before any 30", |c| {
            walk(c, number)?;
            (FROM.walked)(c)
        }),
        walked("every column by itself, a pair's second too", |c| {
            (0..c.ncol).try_for_each(|k| but_for(c, k, false))?;
            (FROM.walked)(c)
        }),
        walked("places from 1", |c| (FROM.walked)(c).map_err(|at| Refusal { a: at.a + 1, ..at })),
        walked("30 at the number that differs", |c| {
            (FROM.walked)(c).map_err(|at| Refusal { a: at.a + usize::from(at.number == 30), ..at })
        }),
        walked("29 at the moved column", |c| {
            let moved = |at: Refusal| if at.number == 29 { pivot_at(c, at.a).moved } else { at.a };
            (FROM.walked)(c).map_err(|at| Refusal { a: moved(at), ..at })
        }),
    ]
}

/// Where the rows stand in the end.
fn arrangements() -> Vec<Named> {
    let order = |name, order| (name, From { order, ..FROM });
    vec![
        order("the exchanges by falling column", |ncol, exchanges| {
            (FROM.order)(ncol, &exchanges.iter().rev().copied().collect::<Vec<_>>())
        }),
        order("the order the wrong way round", |ncol, exchanges| {
            let rows = (FROM.order)(ncol, exchanges);
            (0..ncol).map(|row| place(&rows, row)).collect()
        }),
        order("the list as the order", |ncol, exchanges| {
            let mut rows = at_first(ncol);
            exchanges.iter().for_each(|(pivot, p)| rows[pivot.moved] = *p);
            rows
        }),
        order("a block moves its first column", |ncol, exchanges| {
            let first = |&(pivot, p): &Exchange| (Pivot::at(pivot.first, false), p);
            (FROM.order)(ncol, &exchanges.iter().map(first).collect::<Vec<_>>())
        }),
        order("the rows between move on by one", |ncol, exchanges| {
            let mut rows = at_first(ncol);
            for (pivot, p) in exchanges {
                let row = rows.remove(*p);
                rows.insert(pivot.moved, row);
            }
            rows
        }),
        order("an order from 1", |ncol, exchanges| {
            (FROM.order)(ncol, exchanges).into_iter().map(|row| row + 1).collect()
        }),
    ]
}

/// What the block bytes are.
fn bytes() -> Vec<Named> {
    let bytes = |name, bytes| (name, From { bytes, ..FROM });
    vec![
        bytes("1 at both columns of a block", |c, exchanges| {
            let bytes = (FROM.bytes)(c, exchanges);
            (0..c.ncol).map(|k| bytes[k] | if k > 0 { bytes[k - 1] } else { 0 }).collect()
        }),
        bytes("1 at a block's second column", |c, exchanges| {
            let bytes = (FROM.bytes)(c, exchanges);
            (0..c.ncol).map(|k| if k > 0 { bytes[k - 1] } else { 0 }).collect()
        }),
        bytes("no byte written but the ones", |c, exchanges| {
            let bytes = (FROM.bytes)(c, exchanges);
            (0..c.ncol).map(|k| if bytes[k] == 1 { 1 } else { c.blocks[k] }).collect()
        }),
    ]
}
