//! The real f64 LDLᵀ factorization of one supernode (Bunch-Kaufman, blocked, with tail rows), its inertia, assembly
//! and update, the solve of a root node, and a head's pivots as LAPACK's list and back. Every call is proved to answer
//! as the definitions in the repository's `crates/model/specs` say, whatever numbers and lengths it is given; this
//! crate hands slices over to it, and adds nothing.
//!
//! A node has `ncol` columns and `nrow` rows, `ncol <= nrow`. Its panel is column-major: row `i` of column `j`
//! stands at `i + j * nrow`. The head is the rows below `ncol`, the tail the rest; a root node has no tail. Upper
//! positions (row < column) are never read as numbers, and are copied bit for bit.
//!
//! A call is accepted, or it is refused with a [`Refusal`]: a number and a place. Refusals 1 to 6, 10 to 19 and 25 to
//! 30 write nothing. After 7, 8, 9, 23 and 24 every buffer that a factor call writes holds zeros.
//!
//! No call allocates, waits or panics, and buffers cannot overlap, since what is written is lent as `&mut`. The thread
//! rounds to nearest and keeps subnormal numbers, as at a program's start.

#![deny(missing_docs)]
#![deny(unsafe_op_in_unsafe_fn)]

use std::error::Error;
use std::fmt;

mod ffi;
pub mod leaves;

/// The guide's Rust programs are tested with those of this crate.
#[cfg(doctest)]
#[doc = include_str!("../../docs/GUIDE.md")]
struct Guide;

/// The most columns of a node.
pub const COLUMNS_MAX: usize = 128;

/// The most rows of a node, its columns' among them.
pub const ROWS_MAX: usize = 1024;

/// The widest panel.
pub const WIDTH_MAX: usize = 64;

/// The most rounds that a block's lift may be given.
pub const LIMIT_MAX: usize = 64;

// ---- answers

/// Why a call was turned away: the refusal's number, 1 to 19 or 23 to 30, and its place.
///
/// Numbers never shift. `docs/REFUSALS.md` of the repository has the table of them. Places count from 0 and are 0
/// where a refusal names none.
#[derive(Clone, Copy, Debug, PartialEq, Eq, Hash)]
pub struct Refusal {
    /// Which condition was met.
    pub number: usize,
    /// Place A.
    pub a: usize,
    /// Place B: the row of refusal 6, else 0.
    pub b: usize,
}

impl Refusal {
    /// The condition in words.
    pub fn condition(&self) -> &'static str {
        match self.number {
            1 => {
                "ncol > COLUMNS_MAX, nrow > ROWS_MAX or nrow < ncol; in solve, nrow > ncol too; to and from LAPACK, \
                 the first alone"
            }
            2 => "nb is 0 or above WIDTH_MAX",
            3 => "a buffer's length differs from its stated one",
            4 => "with lifts: the floor is not finite or not above zero",
            5 => "with lifts: the round limit is 0 or above LIMIT_MAX",
            6 => "a lower or tail number of the input is not finite",
            7 => "without lifts: the column test finds zero",
            8 => "with lifts: a block needs more rounds than the limit",
            9 => {
                "after the last column: a column holds a d, subdiagonal, lower head number, block determinant, or \
                 reciprocal of a 1x1 pivot or determinant that is not finite; a block's determinant belongs to \
                 its first column"
            }
            10 => "the shape fails as in 1, or a list's or the panel's length is wrong",
            11 => "an entry has row >= nrow, column >= ncol or row < column",
            12 => "an entry is not finite",
            13 => "the target's shape fails as in 1, nk > COLUMNS_MAX, nk + mk > ROWS_MAX, or a length is wrong",
            14 => "target rows do not rise strictly, or do not begin first, first + 1, .. for ncol rows",
            15 => "descendant rows do not rise strictly",
            16 => "a block byte is not 0 or 1, or a 1 stands last or right before another 1",
            17 => {
                "nk > 0, a descendant row lands on the target's columns, and it or a later row is absent from the \
                 target"
            }
            18 => {
                "a descendant column has a number below its head, or a d, or a subdiagonal under a 1, that is not \
                 finite"
            }
            19 => "the three lists differ in length or exceed COLUMNS_MAX",
            23 => "without lifts: the chosen 1x1 pivot is zero",
            24 => "without lifts: a block's |det| is at most its growth floor",
            25 => "a buffer's length differs from its stated one",
            26 => "the order is no permutation: a row in it is >= ncol, or stands at an earlier position too",
            27 => "a number of the right side is not finite",
            28 => "a block's first row is not in its place after the exchanges of the pivots before",
            29 => {
                "a number is 0, or names, counting from 1, a row beyond ncol or before the column that it moves: its \
                 own, or the second of a pair"
            }
            30 => "a negative number stands last or differs from the one after it",
            _ => "not a refusal",
        }
    }
}

impl fmt::Display for Refusal {
    fn fmt(&self, f: &mut fmt::Formatter<'_>) -> fmt::Result {
        write!(f, "refused {} at {}, {}: {}", self.number, self.a, self.b, self.condition())
    }
}

impl Error for Refusal {}

/// The counts of eigenvalues of D by sign.
#[derive(Clone, Copy, Debug, PartialEq, Eq, Hash)]
pub struct Inertia {
    /// Above zero.
    pub positive: usize,
    /// Below zero.
    pub negative: usize,
    /// Zeros, and 1x1 pivots that are not-a-numbers.
    pub zero: usize,
}

/// What an accepted factor call reports.
#[derive(Clone, Copy, Debug, PartialEq, Eq, Hash)]
pub struct Report {
    /// The rounds of all block lifts.
    pub rounds: usize,
    /// The inertia of D.
    pub inertia: Inertia,
}

impl ffi::Outcome {
    /// The refusal, if the call was turned away.
    fn accepted(self) -> Result<Report, Refusal> {
        if self.number != 0 {
            return Err(Refusal { number: self.number, a: self.a, b: self.b });
        }
        let inertia = Inertia { positive: self.positive, negative: self.negative, zero: self.zero };
        Ok(Report { rounds: self.rounds, inertia })
    }
}

// ---- the factor call

/// What a pivot that is too small meets.
#[derive(Clone, Copy, Debug, PartialEq)]
pub enum Mode {
    /// Refusal 7, 23 or 24, if it cannot be taken at all.
    Fail,
    /// A lift to this floor, finite and above zero.
    Lift(f64),
}

impl Mode {
    /// Whether pivots are lifted, and the floor, which is not read where they are not.
    fn flag_and_floor(self) -> (bool, f64) {
        match self {
            Mode::Fail => (false, 0.0),
            Mode::Lift(floor) => (true, floor),
        }
    }
}

/// Which of the pivot tests decided on a pivot. A factor call leaves its number at the pivot's position, in
/// [`Buffers::tests`].
///
/// The tests compare numbers of the head as it stands when the position has its turn, from the position on up to the
/// end of its panel. colmax is the greatest magnitude in the position's column, its diagonal left out, and imax the row
/// that has it; rowmax is the greatest in row imax of the symmetric matrix, its diagonal left out; alpha is some 0.64,
/// (1 + √17)/8. The greatest is found by squares: what vanishes when squared counts as zero, and what overflows as
/// infinite. The first test that holds decides, in the order of the numbers. A lift changes no number.
///
/// Later versions may have more tests, so that a `match` needs an arm for those too. What to tell a caller who asks why
/// a pivot won: `docs/GUIDE.md` of the repository.
///
/// ```
/// use misuktaan::{factor, Factors, Mode, PivotTest, Settings};
///
/// // [1, 2; 8]: 1 is small beside 2, and 8 is not
/// let settings = Settings { ncol: 2, nrow: 2, nb: 2, mode: Mode::Fail, limit: 1 };
/// let mut f = Factors::zeros(2, 2, 2);
/// factor(&settings, &[1.0, 2.0, 0.0, 8.0], f.lend())?;
/// assert_eq!(f.tests, [3, 1]);
///
/// let test = PivotTest::from_number(f.tests[0]).expect("a test of this version");
/// assert_eq!(test, PivotTest::ExchangedDiagonal);
/// assert_eq!(format!("position 0, row {}: {test}", f.order[0]), "position 0, row 1: exchanged diagonal");
/// assert_eq!(PivotTest::from_number(0xA5), None);
/// # Ok::<(), misuktaan::Refusal>(())
/// ```
#[derive(Clone, Copy, Debug, PartialEq, Eq, Hash)]
#[non_exhaustive]
pub enum PivotTest {
    /// The diagonal and colmax are zero. A 1x1, in [`Mode::Lift`] alone: [`Mode::Fail`] refuses with 7.
    ZeroColumn = 0,
    /// |diagonal| ≥ alpha·colmax. A 1x1, nothing exchanged.
    OwnDiagonal = 1,
    /// |diagonal| ≥ (alpha·colmax)·(colmax/rowmax). A 1x1, nothing exchanged.
    RowTest = 2,
    /// |diagonal of imax| ≥ alpha·rowmax. A 1x1 from row imax, which is exchanged with the position's.
    ExchangedDiagonal = 3,
    /// None of the others holds. A block of the position's row and imax; both of its positions have the number.
    Block = 4,
}

impl PivotTest {
    /// The test of a number, as [`Buffers::tests`] has it; `None` of a byte that is no test's number. What a refused
    /// call left there are no test numbers, though a run refusal's zeros look like those of [`PivotTest::ZeroColumn`].
    pub const fn from_number(number: u8) -> Option<PivotTest> {
        match number {
            0 => Some(PivotTest::ZeroColumn),
            1 => Some(PivotTest::OwnDiagonal),
            2 => Some(PivotTest::RowTest),
            3 => Some(PivotTest::ExchangedDiagonal),
            4 => Some(PivotTest::Block),
            _ => None,
        }
    }

    /// Its number.
    pub const fn number(self) -> u8 {
        self as u8
    }
}

/// The test in words, as one would read it out.
impl fmt::Display for PivotTest {
    fn fmt(&self, f: &mut fmt::Formatter<'_>) -> fmt::Result {
        f.pad(match self {
            PivotTest::ZeroColumn => "zero column",
            PivotTest::OwnDiagonal => "own diagonal",
            PivotTest::RowTest => "row test",
            PivotTest::ExchangedDiagonal => "exchanged diagonal",
            PivotTest::Block => "block",
        })
    }
}

/// The settings of a factor call.
#[derive(Clone, Copy, Debug, PartialEq)]
pub struct Settings {
    /// Columns, 0 to [`COLUMNS_MAX`].
    pub ncol: usize,
    /// Rows, `ncol` to [`ROWS_MAX`].
    pub nrow: usize,
    /// The panel width, 1 to [`WIDTH_MAX`], used as `min(nb, max(ncol, 1))`.
    pub nb: usize,
    /// What a pivot that is too small meets.
    pub mode: Mode,
    /// The rounds that a block's lift may take, 1 to [`LIMIT_MAX`]; not read in [`Mode::Fail`].
    pub limit: usize,
}

/// The length of a factor call's working buffer. Sizes that no call accepts give some number.
///
/// ```
/// use misuktaan::{work_len, ROWS_MAX, WIDTH_MAX};
/// assert_eq!(work_len(ROWS_MAX, WIDTH_MAX), 203_776);
/// ```
pub const fn work_len(nrow: usize, nb: usize) -> usize {
    nrow.saturating_mul(3).saturating_mul(nb.saturating_add(1)).saturating_add(nb.saturating_mul(nb))
}

/// The buffers that a factor call writes. They may hold anything on entry.
#[derive(Debug)]
pub struct Buffers<'a> {
    /// `nrow * ncol`: L below the diagonal; on it the pivot as used of a 1x1, the unlifted diagonal of a block,
    /// whose d21 stands below it; above it what the input holds there, bit for bit.
    pub panel: &'a mut [f64],
    /// `ncol`: the diagonal of D, lifts included.
    pub d: &'a mut [f64],
    /// `ncol`: the subdiagonal of D, d21 at a block's first position, else +0.0.
    pub sub: &'a mut [f64],
    /// `ncol`: 1 at a block's first position, else 0.
    pub blocks: &'a mut [u8],
    /// `ncol`: 1 where a pivot was lifted, else 0.
    pub lifted: &'a mut [u8],
    /// `ncol`: what the lift added, else +0.0.
    pub amounts: &'a mut [f64],
    /// `ncol`: the number of the test that decided on the pivot ([`PivotTest`]), of a block at both positions.
    pub tests: &'a mut [u8],
    /// `nrow`: the input row that each row of the output stands for.
    pub order: &'a mut [usize],
    /// `nrow - ncol`: 1 if the tail row holds a number that is not finite, else 0.
    pub marks: &'a mut [u8],
    /// [`work_len`]: +0.0 after acceptance.
    pub work: &'a mut [f64],
}

/// The buffers of a factor call, owned, for those who do not keep their own.
#[derive(Clone, Debug, PartialEq)]
pub struct Factors {
    /// As in [`Buffers`].
    pub panel: Vec<f64>,
    /// As in [`Buffers`].
    pub d: Vec<f64>,
    /// As in [`Buffers`].
    pub sub: Vec<f64>,
    /// As in [`Buffers`].
    pub blocks: Vec<u8>,
    /// As in [`Buffers`].
    pub lifted: Vec<u8>,
    /// As in [`Buffers`].
    pub amounts: Vec<f64>,
    /// As in [`Buffers`].
    pub tests: Vec<u8>,
    /// As in [`Buffers`].
    pub order: Vec<usize>,
    /// As in [`Buffers`].
    pub marks: Vec<u8>,
    /// As in [`Buffers`].
    pub work: Vec<f64>,
}

impl Factors {
    /// Zeros of the lengths that a call with these sizes takes.
    pub fn zeros(ncol: usize, nrow: usize, nb: usize) -> Factors {
        Factors {
            panel: vec![0.0; nrow * ncol],
            d: vec![0.0; ncol],
            sub: vec![0.0; ncol],
            blocks: vec![0; ncol],
            lifted: vec![0; ncol],
            amounts: vec![0.0; ncol],
            tests: vec![0; ncol],
            order: vec![0; nrow],
            marks: vec![0; nrow.saturating_sub(ncol)],
            work: vec![0.0; work_len(nrow, nb)],
        }
    }

    /// The buffers, lent to a call.
    pub fn lend(&mut self) -> Buffers<'_> {
        Buffers {
            panel: &mut self.panel,
            d: &mut self.d,
            sub: &mut self.sub,
            blocks: &mut self.blocks,
            lifted: &mut self.lifted,
            amounts: &mut self.amounts,
            tests: &mut self.tests,
            order: &mut self.order,
            marks: &mut self.marks,
            work: &mut self.work,
        }
    }
}

/// Factors one node: `input` is its panel, `nrow * ncol` numbers.
///
/// ```
/// use misuktaan::{factor, Factors, Mode, Settings};
///
/// let settings = Settings { ncol: 2, nrow: 2, nb: 2, mode: Mode::Fail, limit: 1 };
/// let mut factors = Factors::zeros(2, 2, 2);
/// // [1, 2; 8] by its lower triangle; the 0.0 is an upper position
/// let report = factor(&settings, &[1.0, 2.0, 0.0, 8.0], factors.lend())?;
/// assert_eq!(report.inertia.positive, 2);
/// assert_eq!(factors.order, [1, 0]);
/// assert_eq!(factors.d, [8.0, 0.5]);
/// assert_eq!(factors.panel[1], 0.25);
///
/// // a zero column is refused at its position, and the buffers hold zeros
/// let refusal = factor(&settings, &[0.0; 4], factors.lend()).unwrap_err();
/// assert_eq!((refusal.number, refusal.a, refusal.b), (7, 0, 0));
/// assert_eq!(factors.d, [0.0, 0.0]);
/// # Ok::<(), misuktaan::Refusal>(())
/// ```
///
/// # Errors
///
/// Refusals 1 to 7, 23, 24, 8 and 9: 1 to 6 write nothing, the others leave zeros in every buffer.
pub fn factor(settings: &Settings, input: &[f64], buffers: Buffers<'_>) -> Result<Report, Refusal> {
    ffi::factor(settings, input, buffers).accepted()
}

// ---- inertia

/// Counts the eigenvalues of D by sign. The three lists are those that a factor call gives, of one length of at
/// most [`COLUMNS_MAX`]; their numbers may be anything.
///
/// ```
/// // one block [0, 1; 0]
/// let counts = misuktaan::inertia(&[0.0, 0.0], &[1.0, 0.0], &[1, 0])?;
/// assert_eq!((counts.positive, counts.negative, counts.zero), (1, 1, 0));
/// # Ok::<(), misuktaan::Refusal>(())
/// ```
///
/// # Errors
///
/// Refusals 19 and 16.
pub fn inertia(d: &[f64], sub: &[f64], blocks: &[u8]) -> Result<Inertia, Refusal> {
    ffi::inertia(d, sub, blocks).accepted().map(|report| report.inertia)
}

// ---- assembly

/// Entries of a node: three lists of one length.
#[derive(Clone, Copy, Debug)]
pub struct Entries<'a> {
    /// Rows of the node.
    pub rows: &'a [usize],
    /// Columns of the node.
    pub cols: &'a [usize],
    /// What is added there.
    pub numbers: &'a [f64],
}

/// Adds entries to a node's panel of `nrow * ncol` numbers, in the order in which they are listed, duplicates included.
/// The panel may hold anything.
///
/// ```
/// use misuktaan::{assemble, Entries};
///
/// let mut panel = [0.0, 0.0];
/// let entries = Entries { rows: &[0, 1, 0], cols: &[0, 0, 0], numbers: &[4.0, 20.0, 6.0] };
/// assemble(1, 2, &entries, &mut panel)?;
/// assert_eq!(panel, [10.0, 20.0]);
/// # Ok::<(), misuktaan::Refusal>(())
/// ```
///
/// # Errors
///
/// Refusals 10 to 12; nothing is written.
pub fn assemble(ncol: usize, nrow: usize, entries: &Entries<'_>, panel: &mut [f64]) -> Result<(), Refusal> {
    ffi::assemble(ncol, nrow, entries, panel).accepted().map(|_| ())
}

// ---- update

/// The target of an update, its panel aside.
#[derive(Clone, Copy, Debug)]
pub struct Target<'a> {
    /// Columns.
    pub ncol: usize,
    /// Rows.
    pub nrow: usize,
    /// The global row of the first column.
    pub first: u32,
    /// `nrow`: the global rows, strictly rising, the first `ncol` of them `first`, `first + 1`, ..
    pub rows: &'a [u32],
}

/// A factored descendant.
#[derive(Clone, Copy, Debug)]
pub struct Descendant<'a> {
    /// Columns, at most [`COLUMNS_MAX`].
    pub nk: usize,
    /// Rows below them; `nk + mk` is at most [`ROWS_MAX`].
    pub mk: usize,
    /// `(nk + mk) * nk`: the factored panel, its head rows first. The head is not read.
    pub panel: &'a [f64],
    /// `nk`: the diagonal of D.
    pub d: &'a [f64],
    /// `nk`: the subdiagonal of D.
    pub sub: &'a [f64],
    /// `nk`: the block bytes.
    pub blocks: &'a [u8],
    /// `mk`: the global rows below the columns, strictly rising.
    pub rows: &'a [u32],
}

/// Subtracts from the target's panel of `nrow * ncol` numbers what the descendant has for it. A row of the descendant
/// lands if it is one of the target's columns; if none does, nothing is written. The panel may hold anything.
///
/// ```
/// use misuktaan::{update, Descendant, Target};
///
/// let target = Target { ncol: 1, nrow: 2, first: 5, rows: &[5, 7] };
/// let descendant = Descendant {
///     nk: 1,
///     mk: 2,
///     panel: &[1.0, 2.0, 3.0],
///     d: &[1.0],
///     sub: &[0.0],
///     blocks: &[0],
///     rows: &[5, 7],
/// };
/// let mut panel = [10.0, 20.0];
/// update(&target, &mut panel, &descendant)?;
/// assert_eq!(panel, [6.0, 14.0]);
/// # Ok::<(), misuktaan::Refusal>(())
/// ```
///
/// # Errors
///
/// Refusals 13 to 18; nothing is written.
pub fn update(target: &Target<'_>, panel: &mut [f64], descendant: &Descendant<'_>) -> Result<(), Refusal> {
    ffi::update(target, panel, descendant).accepted().map(|_| ())
}

// ---- solve

/// Solves A x = b at a root node, `nrow = ncol`, by what a factor call wrote: `vector` holds b on entry and x after
/// acceptance, both by the rows of the factor call's input. A is the node's symmetric matrix as it was factored, lifts
/// included.
///
/// The panel has `nrow * ncol` numbers, every other list `ncol`. The numbers of the factor are not checked: x is what
/// the steps make of them, and may not be finite.
///
/// ```
/// use misuktaan::{factor, solve, Factors, Mode, Settings};
///
/// let settings = Settings { ncol: 2, nrow: 2, nb: 2, mode: Mode::Fail, limit: 1 };
/// let mut f = Factors::zeros(2, 2, 2);
/// factor(&settings, &[1.0, 2.0, 0.0, 8.0], f.lend())?;
///
/// // 1 x0 + 2 x1 = 5, 2 x0 + 8 x1 = 18
/// let mut vector = [5.0, 18.0];
/// solve(2, 2, &f.panel, &f.d, &f.sub, &f.blocks, &f.order, &mut vector)?;
/// assert_eq!(vector, [1.0, 2.0]);
///
/// // a right side that is not finite is refused at its row, and left as it was
/// let mut vector = [5.0, f64::INFINITY];
/// let refusal = solve(2, 2, &f.panel, &f.d, &f.sub, &f.blocks, &f.order, &mut vector).unwrap_err();
/// assert_eq!((refusal.number, refusal.a, refusal.b), (27, 1, 0));
/// assert_eq!(vector, [5.0, f64::INFINITY]);
/// # Ok::<(), misuktaan::Refusal>(())
/// ```
///
/// # Errors
///
/// Refusals 1, 25, 26, 16 and 27; nothing is written.
#[allow(clippy::too_many_arguments)]
pub fn solve(
    ncol: usize,
    nrow: usize,
    panel: &[f64],
    d: &[f64],
    sub: &[f64],
    blocks: &[u8],
    order: &[usize],
    vector: &mut [f64],
) -> Result<(), Refusal> {
    ffi::solve(ncol, nrow, panel, d, sub, blocks, order, vector).accepted().map(|_| ())
}

// ---- LAPACK's list of pivots

/// Turns a head's order and block bytes into the list of pivots that LAPACK's xSYTF2 has for a lower triangle. There is
/// a number for each column, and rows and columns are counted from 1: p > 0 at k is a 1x1 at k, for which rows k and p
/// were exchanged; -p at k and at k + 1 is a block there, for which rows k + 1 and p were.
///
/// All lists have `ncol` places: the order is the head's, a factor call's first `ncol`. `list` may hold anything on
/// entry. What an accepted factor call leaves is never refused with 26, 16 or 28.
///
/// ```
/// use misuktaan::{factor, to_lapack, Factors, Mode, Settings};
///
/// let settings = Settings { ncol: 2, nrow: 3, nb: 2, mode: Mode::Fail, limit: 1 };
/// let mut f = Factors::zeros(2, 3, 2);
/// // [1, 2; 8] over a tail row 3, 4: row 1 is taken first
/// factor(&settings, &[1.0, 2.0, 3.0, 0.0, 8.0, 4.0], f.lend())?;
/// let mut list = [0; 2];
/// to_lapack(2, &f.order[..2], &f.blocks, &mut list)?;
/// assert_eq!((&f.order[..2], list), (&[1, 0][..], [2, 2]));
///
/// // a block that would have to exchange its first row too has no such list
/// let refusal = to_lapack(2, &[1, 0], &[1, 0], &mut list).unwrap_err();
/// assert_eq!((refusal.number, refusal.a, refusal.b), (28, 0, 0));
/// assert_eq!(list, [2, 2]);
/// # Ok::<(), misuktaan::Refusal>(())
/// ```
///
/// # Errors
///
/// Refusals 1, 25, 26, 16 and 28; nothing is written.
pub fn to_lapack(ncol: usize, order: &[usize], blocks: &[u8], list: &mut [i32]) -> Result<(), Refusal> {
    ffi::to_lapack(ncol, order, blocks, list).accepted().map(|_| ())
}

/// Turns LAPACK's list of pivots for a lower triangle back into an order and block bytes. What the one of the two
/// calls accepts, the other turns back into the very same.
///
/// All lists have `ncol` places; `order` and `blocks` may hold anything on entry. The list is gone through by rising
/// column, the two of a pair as one, and its first fault is the refusal.
///
/// ```
/// use misuktaan::{from_lapack, to_lapack};
///
/// // rows 1 and 3, as LAPACK counts, exchanged for a 1x1; then a block with no exchange
/// let (mut order, mut blocks) = ([0; 3], [0; 3]);
/// from_lapack(3, &[3, -3, -3], &mut order, &mut blocks)?;
/// assert_eq!((order, blocks), ([2, 1, 0], [0, 1, 0]));
///
/// let mut list = [0; 3];
/// to_lapack(3, &order, &blocks, &mut list)?;
/// assert_eq!(list, [3, -3, -3]);
///
/// // the second of a pair is missing
/// let refusal = from_lapack(3, &[3, 2, -3], &mut order, &mut blocks).unwrap_err();
/// assert_eq!((refusal.number, refusal.a, refusal.b), (30, 2, 0));
/// # Ok::<(), misuktaan::Refusal>(())
/// ```
///
/// # Errors
///
/// Refusals 1, 25, 30 and 29; nothing is written.
pub fn from_lapack(ncol: usize, list: &[i32], order: &mut [usize], blocks: &mut [u8]) -> Result<(), Refusal> {
    ffi::from_lapack(ncol, list, order, blocks).accepted().map(|_| ())
}
