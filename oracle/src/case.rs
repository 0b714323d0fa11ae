//! A call of the port with its arguments, and what the call answers.

use rslab::reach::Factored;

/// What a pivot below the floor meets.
#[derive(Clone, Copy, Debug)]
pub enum Mode {
    Fail,
    Lift(f64),
}

impl Mode {
    pub fn floor(self) -> Option<f64> {
        match self {
            Mode::Fail => None,
            Mode::Lift(floor) => Some(floor),
        }
    }
}

/// The settings of a factor call.
#[derive(Clone, Copy, Debug)]
pub struct Settings {
    pub ncol: usize,
    pub nrow: usize,
    pub nb: usize,
    pub mode: Mode,
    pub limit: usize,
}

/// A factor call. `lengths` are those of the lent buffers where they are not
/// the stated ones (see [`stated_lengths`]).
#[derive(Clone, Debug)]
pub struct Factor {
    pub settings: Settings,
    pub panel: Vec<f64>,
    pub lengths: Option<Vec<usize>>,
}

/// Entries to add to a panel, as three lists.
#[derive(Clone, Debug)]
pub struct Assembly {
    pub ncol: usize,
    pub nrow: usize,
    pub panel: Vec<f64>,
    pub rows: Vec<usize>,
    pub cols: Vec<usize>,
    pub numbers: Vec<f64>,
}

/// A factored descendant of `ncol` columns and `below` rows below them.
#[derive(Clone, Debug)]
pub struct Descendant {
    pub ncol: usize,
    pub below: usize,
    pub rows: Vec<u32>,
    pub panel: Vec<f64>,
    pub d: Vec<f64>,
    pub sub: Vec<f64>,
    pub blocks: Vec<u8>,
}

/// Where a target stands: its first column and all its rows, global.
#[derive(Clone, Debug)]
pub struct Place {
    pub first: u32,
    pub rows: Vec<u32>,
}

/// A descendant's update of a target.
#[derive(Clone, Debug)]
pub struct Update {
    pub ncol: usize,
    pub nrow: usize,
    pub place: Place,
    pub panel: Vec<f64>,
    pub descendant: Descendant,
}

/// A node worked whole: assembly, the updates in turn, factor.
#[derive(Clone, Debug)]
pub struct Whole {
    pub settings: Settings,
    pub assembly: Assembly,
    pub place: Place,
    pub descendants: Vec<Descendant>,
}

/// The counts of a factored `D`.
#[derive(Clone, Debug)]
pub struct Inertia {
    pub d: Vec<f64>,
    pub sub: Vec<f64>,
    pub blocks: Vec<u8>,
}

/// A solve with the factor of a root node: what a factor call leaves, or anything
/// else, and the right side.
#[derive(Clone, Debug)]
pub struct Solve {
    pub ncol: usize,
    pub nrow: usize,
    pub panel: Vec<f64>,
    pub d: Vec<f64>,
    pub sub: Vec<f64>,
    pub blocks: Vec<u8>,
    pub order: Vec<usize>,
    pub vector: Vec<f64>,
}

/// An order and block bytes to make LAPACK's list of, and what the list holds before.
#[derive(Clone, Debug)]
pub struct ToLapack {
    pub ncol: usize,
    pub order: Vec<usize>,
    pub blocks: Vec<u8>,
    pub list: Vec<i32>,
}

/// LAPACK's list to make an order and block bytes of, and what these hold before.
#[derive(Clone, Debug)]
pub struct FromLapack {
    pub ncol: usize,
    pub list: Vec<i32>,
    pub order: Vec<usize>,
    pub blocks: Vec<u8>,
}

/// A leaf of a name on one or two numbers.
#[derive(Clone, Debug)]
pub struct Leaf {
    pub name: String,
    pub a: f64,
    pub b: f64,
}

#[derive(Clone, Debug)]
pub enum Case {
    Factor(Factor),
    Assembly(Assembly),
    Update(Update),
    Whole(Whole),
    Inertia(Inertia),
    Solve(Solve),
    ToLapack(ToLapack),
    FromLapack(FromLapack),
    Leaf(Leaf),
    /// The magnitude of any bits.
    Magnitude(u64),
}

/// A refusal: its number and its place.
#[derive(Clone, Copy, Debug, PartialEq)]
pub struct Refusal {
    pub number: usize,
    pub a: usize,
    pub b: usize,
}

impl Refusal {
    /// Whether it is a refusal of the run, which leaves zeros; any other writes
    /// nothing.
    pub fn of_the_run(&self) -> bool {
        matches!(self.number, 7..=9 | 23 | 24)
    }
}

#[derive(Clone, Debug)]
pub enum Answer {
    Refused(Refusal),
    Accepted { rounds: usize, factored: Factored, marks: Vec<bool> },
    Panel(Vec<f64>),
    Vector(Vec<f64>),
    List(Vec<i32>),
    Pivots { order: Vec<usize>, blocks: Vec<u8> },
    Counts([usize; 3]),
    Number(f64),
    Bits(u64),
}

/// The names of a factor call's lent buffers, in the order of their lengths.
pub const BUFFERS: [&str; 10] = ["panel", "d", "sub", "blocks", "lifts", "amounts", "tests", "order", "marks", "work"];

/// The lent buffers' lengths by docs/SCOPE.md, "Sizes and buffers"; for a shape that is held.
pub fn stated_lengths(s: &Settings) -> Vec<usize> {
    let (ncol, nrow, nb) = (s.ncol, s.nrow, s.nb);
    let work = 3 * nrow * (nb + 1) + nb * nb;
    [&[nrow * ncol][..], &[ncol; 6], &[nrow, nrow.saturating_sub(ncol), work]].concat()
}
