//! The library's pivot lists beside LAPACK's, on the systems of lapack.rs.
//!
//! - dsytf2's list is accepted, comes back unchanged, and gives an order and block bytes with which its L and D
//!   reproduce the matrix, rows and columns in that order: what is left of it, ‖P·A·Pᵀ − L·D·Lᵀ‖, is held to
//!   PRODUCT·eps·n·‖|L|·|D|·|L|ᵀ‖. With them, and with the rows of its L brought to their last places, the library
//!   solves the system.
//! - The list of the library's factor leads back to its order and block bytes; with it, and with its L and D in
//!   LAPACK's layout, dsytrs solves the system.
//! - With another list, one exchange of which is another that is permitted, the matrix is not reproduced and the system
//!   is not solved.
//! - Of the head that docs/GUIDE.md shows, the library's list and its rows in LAPACK's layout are dsytf2's by bits.

use crate::factored::{exchanges, Factored};
use crate::fortran;
use crate::norms::{grown, left_of};
use crate::{Counts, Seen, System, LIMIT};
use oracle::pivots::Exchange;

/// The greatest multiple of eps·n·‖|L|·|D|·|L|ᵀ‖ that passes. Of 45,000 lists 0.29 was seen at most.
const PRODUCT: f64 = 1.0;

/// What the systems met.
#[derive(Default)]
pub struct Lists {
    systems: u64,
    /// With blocks, with an exchange: dsytf2's lists, and the library's.
    blocks: [u64; 2],
    exchanged: [u64; 2],
    product: f64,
    /// The solutions by LAPACK's factor, and those of LAPACK's by the library's.
    from: f64,
    to: Seen,
    others: Seen,
    /// The wrong lists in the place of dsytf2's and of the library's, and the least that is seen with them.
    wrong: [u64; 2],
    least_product: Option<f64>,
    least_multiple: Option<f64>,
}

/// A permitted list that differs in one exchange, the i-th that can be another or one after it.
fn another(list: &[i32], i: usize) -> Option<Vec<i32>> {
    let n = list.len();
    let open: Vec<Exchange> = exchanges(list).ok()?.into_iter().filter(|of| of.0.moved + 1 < n).collect();
    let (pivot, p) = *open.get(i % open.len().max(1))?;
    // from the moved column on, but for p
    let e = pivot.moved;
    let other = e + (p - e + 1 + i % (n - e - 1)) % (n - e);
    let mut wrong = list.to_vec();
    wrong[pivot.first..=e].copy_from_slice(&pivot.numbers(other));
    Some(wrong)
}

/// What is left of the matrix, as a multiple of eps·n·‖|L|·|D|·|L|ᵀ‖.
fn product(of: &System, f: &Factored) -> f64 {
    left_of(&of.a, f) / (f64::EPSILON * of.n as f64 * grown(f))
}

/// LAPACK's solution by the library's factor and a list.
fn solved_by_lapack(of: &System, list: &[i32]) -> Result<Vec<f64>, String> {
    let mut x = of.b.clone();
    fortran::dsytrs(of.n, &of.ours.for_lapack(list)?, list, &mut x);
    Ok(x)
}

/// The head of examples/c/lapack.c, without the tail row, which steers nothing; and its list.
const GUIDES_HEAD: [f64; 16] = [2.0, 6.0, 8.0, -2.0, 0.0, 2.0, 4.0, 2.0, 0.0, 0.0, 8.0, -4.0, 0.0, 0.0, 0.0, 2.0];
const GUIDES_LIST: [i32; 4] = [3, -4, -4, 4];

/// Whether dsytf2 leaves of the guide's head what the guide says.
fn guides_head_is_lapacks() -> Result<bool, String> {
    let (mut theirs, mut list) = (GUIDES_HEAD.to_vec(), vec![0; 4]);
    fortran::dsytf2(4, &mut theirs, &mut list);
    let ours = Factored::of(4, 4, &GUIDES_HEAD)?;
    let rows = ours.for_lapack(&ours.list()?)?;
    let alike = rows.iter().zip(&theirs).all(|(x, y)| x.to_bits() == y.to_bits());
    Ok(ours.list()? == list && list == GUIDES_LIST && alike)
}

impl Lists {
    /// One system, the i-th of its class. A refusal of a call that must accept ends it.
    pub fn compared(&mut self, counts: &mut Counts, of: &System, i: usize) -> Result<(), String> {
        let mut held = |so: bool, what: &str| counts.add(so, || format!("{}: {what}", of.name));
        let theirs = Factored::from_lapack(of.n, &of.theirs, &of.list)?;
        held(theirs.list()? == of.list, "dsytf2's list does not come back");
        let (product_left, by_theirs) = (product(of, &theirs), of.multiple(&theirs.solved(&of.b)?));
        held(product_left <= PRODUCT, &format!("{product_left:.2} is left of the matrix"));
        held(by_theirs <= LIMIT, &format!("{by_theirs:.2} by LAPACK's factor"));

        let ours = of.ours.list()?;
        let back = Factored::from_lapack(of.n, &of.ours.for_lapack(&ours)?, &ours)?;
        held(back.order == of.ours.order && back.blocks == of.ours.blocks, "the library's list does not lead back");
        let by_ours = of.seen(&solved_by_lapack(of, &ours)?);
        held(by_ours.held(of) <= LIMIT, &format!("{:.2} of LAPACK's by the library's factor", by_ours.held(of)));

        self.systems += 1;
        for (side, factored) in [&theirs, &of.ours].into_iter().enumerate() {
            self.blocks[side] += u64::from(factored.blocks.contains(&1));
            self.exchanged[side] += u64::from(!factored.order.is_sorted());
        }
        (self.product, self.from) = (self.product.max(product_left), self.from.max(by_theirs));
        let to = if of.searched { &mut self.to } else { &mut self.others };
        *to = to.or(by_ours);
        self.wrong(counts, of, &ours, i)
    }

    /// Another list in the place of LAPACK's, and of the library's, is noticed.
    fn wrong(&mut self, counts: &mut Counts, of: &System, ours: &[i32], i: usize) -> Result<(), String> {
        let mut noticed = |least: &mut Option<f64>, seen: f64, bound: f64, what: &str| {
            *least = Some(least.map_or(seen, |least| least.min(seen)));
            counts.add(seen > bound, || format!("{}: a wrong list passes: {seen:.2} {what}", of.name));
        };
        if let Some(list) = another(&of.list, i) {
            let theirs = Factored::from_lapack(of.n, &of.theirs, &list)?;
            noticed(&mut self.least_product, product(of, &theirs), PRODUCT, "is left of the matrix");
            noticed(&mut self.least_multiple, of.multiple(&theirs.solved(&of.b)?), LIMIT, "by LAPACK's factor");
            self.wrong[0] += 1;
        }
        if let Some(list) = another(ours, i) {
            let by_ours = of.seen(&solved_by_lapack(of, &list)?).held(of);
            noticed(&mut self.least_multiple, by_ours, LIMIT, "of LAPACK's by the library's factor");
            self.wrong[1] += 1;
        }
        Ok(())
    }

    /// The guide's head, exactly.
    pub fn guides_head(counts: &mut Counts) {
        let is = guides_head_is_lapacks();
        counts.add(is == Ok(true), || format!("the guide's head is not dsytf2's: {is:?}"));
    }

    /// Prints what was met; what was not, and must be, counts as a difference.
    pub fn print(&self, counts: &mut Counts) {
        let Lists { systems, blocks, exchanged, product, from, to, others, wrong, .. } = self;
        println!("{systems} lists of dsytf2's: with blocks {}, with an exchange {}", blocks[0], exchanged[0]);
        println!("left of the matrix at most {product:.3}; the library's solution by these at most {from:.2}");
        println!("as many lists of the library's: with blocks {}, with an exchange {}", blocks[1], exchanged[1]);
        let (multiple, over_growth) = (to.multiple, others.over_growth);
        println!("LAPACK's solution by these at most {multiple:.2}; elsewhere, over growth: {over_growth:.2}");
        let least = |of: Option<f64>| of.map_or("none".into(), |least| format!("{least:.0}"));
        let (product, multiple) = (least(self.least_product), least(self.least_multiple));
        println!("{} wrong lists for dsytf2's, {} for the library's", wrong[0], wrong[1]);
        println!("left of the matrix by these at least {product}; a solution at least {multiple}");
        for (met, what) in [(blocks, "with blocks"), (exchanged, "with an exchange"), (wrong, "wrong")] {
            if met.contains(&0) {
                counts.add(false, || format!("of dsytf2's lists or of the library's none is {what}"));
            }
        }
    }
}
