//! The calls to LAPACK and from it, restated from docs/SCOPE.md, "LAPACK's pivot
//! lists", apart from the port: rows trade places in a list of rows. Each step is a
//! function of its own, and [`TO`] and [`FROM`] have them all, so that a wrong
//! reading can say one of them otherwise (`pivot_readings/`).

use crate::case::{FromLapack, Refusal, ToLapack};
use crate::rules::{bad_block, refuse_at, refuse_if, Checked, MAX_COL};

/// A pivot's first column, and the one that its exchange moves: that column too at a
/// 1x1, the next at a block. Both count from 0.
#[derive(Clone, Copy)]
pub struct Pivot {
    pub first: usize,
    pub moved: usize,
}

impl Pivot {
    pub fn at(first: usize, block: bool) -> Pivot {
        Pivot { first, moved: first + usize::from(block) }
    }

    pub fn is_block(self) -> bool {
        self.moved > self.first
    }

    /// Its numbers in a list, from the place with which its moved column is exchanged.
    pub fn numbers(self, p: usize) -> Vec<i32> {
        match self.is_block() {
            true => vec![-from_one(p); 2],
            false => vec![from_one(p)],
        }
    }
}

/// A number of LAPACK's, which counts from 1.
pub fn from_one(place: usize) -> i32 {
    i32::try_from(place + 1).expect("a number of a list")
}

/// Each row at its own place.
pub fn at_first(ncol: usize) -> Vec<usize> {
    (0..ncol).collect()
}

// ---- to LAPACK

/// A reading of the text of the call to LAPACK: the refusals, and what each step of a pivot gives.
#[derive(Clone, Copy)]
pub struct To {
    /// 1, 25, 26, 16.
    pub checked: fn(&ToLapack) -> Checked,
    /// The pivots in the order in which they are gone through.
    pub pivots: fn(&ToLapack) -> Vec<Pivot>,
    /// 28, by the rows as the pivots before have left them.
    pub in_place: fn(&ToLapack, Pivot, &[usize]) -> Checked,
    /// The column that is moved.
    pub moved: fn(Pivot) -> usize,
    /// The place, by then, of the row that comes to the moved column.
    pub partner: fn(&ToLapack, usize, &[usize]) -> usize,
    pub exchanged: fn(&mut Vec<usize>, usize, usize),
    /// The numbers at a pivot's columns, from the partner.
    pub numbers: fn(&ToLapack, Pivot, usize) -> Vec<i32>,
}

/// The reading that is built.
pub const TO: To = To {
    checked: to_checked,
    pivots: |c| by_blocks(&c.blocks),
    in_place,
    moved: |pivot| pivot.moved,
    partner,
    exchanged,
    numbers: |_, pivot, p| pivot.numbers(p),
};

impl To {
    /// The refusal, or the list as an accepted call leaves it.
    pub fn answer(&self, c: &ToLapack) -> Result<Vec<i32>, Refusal> {
        (self.checked)(c)?;
        let (mut rows, mut list) = (at_first(c.ncol), vec![0; c.ncol]);
        for pivot in (self.pivots)(c) {
            (self.in_place)(c, pivot, &rows)?;
            let e = (self.moved)(pivot);
            let p = (self.partner)(c, e, &rows);
            (self.exchanged)(&mut rows, e, p);
            list[pivot.first..=pivot.moved].copy_from_slice(&(self.numbers)(c, pivot, p));
        }
        Ok(list)
    }
}

fn to_checked(c: &ToLapack) -> Checked {
    width(c.ncol)?;
    to_lengths(c)?;
    order(c)?;
    blocks(c)
}

/// 1, by ncol alone.
pub fn width(ncol: usize) -> Checked {
    refuse_if(ncol > MAX_COL, 1)
}

/// 25: each list has ncol places.
pub fn to_lengths(c: &ToLapack) -> Checked {
    refuse_if([c.order.len(), c.blocks.len(), c.list.len()] != [c.ncol; 3], 25)
}

/// 26: the least position that is out of range or repeats an earlier one.
pub fn order(c: &ToLapack) -> Checked {
    refuse_at((0..c.ncol).find(|&k| out_of_range(c, k) || repeats(c, k)), 26)
}

pub fn out_of_range(c: &ToLapack, k: usize) -> bool {
    c.order[k] >= c.ncol
}

pub fn repeats(c: &ToLapack, k: usize) -> bool {
    c.order[..k].contains(&c.order[k])
}

/// 16.
pub fn blocks(c: &ToLapack) -> Checked {
    refuse_at(bad_block(&c.blocks), 16)
}

/// The pivots of block bytes, by rising column.
pub fn by_blocks(blocks: &[u8]) -> Vec<Pivot> {
    let second = |k: usize| k > 0 && blocks[k - 1] == 1;
    (0..blocks.len()).filter(|&k| !second(k)).map(|k| Pivot::at(k, blocks[k] == 1)).collect()
}

fn in_place(c: &ToLapack, pivot: Pivot, rows: &[usize]) -> Checked {
    let k = pivot.first;
    refuse_at((pivot.is_block() && rows[k] != c.order[k]).then_some(k), 28)
}

fn partner(c: &ToLapack, e: usize, rows: &[usize]) -> usize {
    place(rows, c.order[e])
}

/// Where a row stands.
pub fn place(rows: &[usize], row: usize) -> usize {
    rows.iter().position(|&r| r == row).expect("a row")
}

fn exchanged(rows: &mut Vec<usize>, e: usize, p: usize) {
    rows.swap(e, p);
}

// ---- from LAPACK

/// A pivot, and the place with which its moved column is exchanged.
pub type Exchange = (Pivot, usize);

/// A reading of the text of the call from LAPACK: the refusals, and what each step gives.
#[derive(Clone, Copy)]
pub struct From {
    /// 1, 25.
    pub checked: fn(&FromLapack) -> Checked,
    /// 30 and 29, or the exchanges by rising column.
    pub walked: fn(&FromLapack) -> Result<Vec<Exchange>, Refusal>,
    /// 1: where the rows stand in the end.
    pub order: fn(usize, &[Exchange]) -> Vec<usize>,
    pub bytes: fn(&FromLapack, &[Exchange]) -> Vec<u8>,
}

/// The reading that is built.
pub const FROM: From = From { checked: from_checked, walked: |c| walk(c, fault), order: arranged, bytes };

/// An order and block bytes.
pub type Read = (Vec<usize>, Vec<u8>);

impl From {
    /// The refusal, or the order and the block bytes as an accepted call leaves them.
    pub fn answer(&self, c: &FromLapack) -> Result<Read, Refusal> {
        (self.checked)(c)?;
        let exchanges = (self.walked)(c)?;
        Ok(((self.order)(c.ncol, &exchanges), (self.bytes)(c, &exchanges)))
    }
}

fn from_checked(c: &FromLapack) -> Checked {
    width(c.ncol)?;
    from_lengths(c)
}

/// 25.
pub fn from_lengths(c: &FromLapack) -> Checked {
    refuse_if([c.list.len(), c.order.len(), c.blocks.len()] != [c.ncol; 3], 25)
}

/// Up the columns to the first fault, from pivot to pivot.
pub fn walk(c: &FromLapack, fault: fn(&FromLapack, usize) -> Checked) -> Result<Vec<Exchange>, Refusal> {
    let (mut exchanges, mut k) = (Vec::new(), 0);
    while k < c.ncol {
        fault(c, k)?;
        let pivot = pivot_at(c, k);
        exchanges.push((pivot, (row(c, k) - 1) as usize));
        k = pivot.moved + 1;
    }
    Ok(exchanges)
}

/// The pivot that the number at column k begins.
pub fn pivot_at(c: &FromLapack, k: usize) -> Pivot {
    Pivot::at(k, c.list[k] < 0)
}

/// The row that the number at column k names, from 1.
pub fn row(c: &FromLapack, k: usize) -> i64 {
    i64::from(c.list[k]).abs()
}

fn fault(c: &FromLapack, k: usize) -> Checked {
    pair(c, k)?;
    number(c, k)
}

/// 30: a negative number stands last, or another number after it.
pub fn pair(c: &FromLapack, k: usize) -> Checked {
    refuse_at((c.list[k] < 0 && c.list.get(k + 1) != Some(&c.list[k])).then_some(k), 30)
}

/// 29: 0, a row beyond the last, or one before the moved column.
pub fn number(c: &FromLapack, k: usize) -> Checked {
    let moved = pivot_at(c, k).moved as i64 + 1;
    refuse_at((row(c, k) > c.ncol as i64 || row(c, k) < moved).then_some(k), 29)
}

fn arranged(ncol: usize, exchanges: &[Exchange]) -> Vec<usize> {
    let mut rows = at_first(ncol);
    exchanges.iter().for_each(|(pivot, p)| rows.swap(pivot.moved, *p));
    rows
}

fn bytes(c: &FromLapack, exchanges: &[Exchange]) -> Vec<u8> {
    let begins = |k| exchanges.iter().any(|(pivot, _)| pivot.is_block() && pivot.first == k);
    (0..c.ncol).map(|k| u8::from(begins(k))).collect()
}
