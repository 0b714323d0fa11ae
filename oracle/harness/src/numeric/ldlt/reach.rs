//! The oracle's way into the unchanged reference: one supernode with its
//! entries and its factored descendants, under the reference settings.

use super::bunch_kaufman::{bk_alpha, ll_cdiv_emit, BkPools};
use super::factor::LlEmitLdlt;
use super::node::ll_factor_node;
use super::traced::{self, Panels, Traced};
pub use super::traced::{Step, Stop};
use crate::numeric::gemm_tuning::KernelTuning;
use crate::numeric::supernodal::panel::{slot_sizes, PanelArena};
use crate::numeric::supernodal::{
    emit_refcount_offsets, perturb_pivot, Cells, Closed, Input, InputProgram, LlSchedule, ScratchPool,
};
use crate::scalar::Scalar;
use crate::sparse::csc::CscPattern;
use crate::symbolic::supernode::{AmalgamationStrategy, Supernode};
use crate::symbolic::{OrderingMethod, SymbolicFactorization};
use crate::KernelSettings;
use std::panic::{catch_unwind, resume_unwind, AssertUnwindSafe};

/// A factored descendant: its columns, its rows below (global), its panel,
/// `D` and block flags.
#[derive(Clone, Debug)]
pub struct Descendant {
    pub ncol: usize,
    pub rows: Vec<u32>,
    pub panel: Vec<f64>,
    pub d: Vec<f64>,
    pub sub: Vec<f64>,
    pub blocks: Vec<bool>,
}

/// A supernode: its rows (global, the first `ncol` in a run), what its panel
/// holds, the entries to assemble (local row, column, number), and the
/// descendants in the order of their updates.
#[derive(Clone, Debug)]
pub struct Node {
    pub ncol: usize,
    pub rows: Vec<u32>,
    pub panel: Vec<f64>,
    pub entries: Vec<(usize, usize, f64)>,
    pub descendants: Vec<Descendant>,
}

/// What a factored supernode holds. `order` has a place for every row. As traced:
/// `rounds` has `(position, rounds)` of each lifted block, `tests` the test number of
/// each position, by how far the steps looked, `steps` what they looked at.
#[derive(Clone, Debug)]
pub struct Factored {
    pub panel: Vec<f64>,
    pub d: Vec<f64>,
    pub sub: Vec<f64>,
    pub blocks: Vec<bool>,
    pub lifts: Vec<bool>,
    pub amounts: Vec<f64>,
    pub tests: Vec<u8>,
    pub order: Vec<usize>,
    pub inertia: [usize; 3],
    pub rounds: Vec<(usize, usize)>,
    pub steps: Vec<Step>,
}

/// How a run of the reference went: it ended; it stopped at a position, on one
/// of its three tests, with the panel as it stood; or a block's lift at a
/// position took more than [`traced::ROUNDS_WATCHED`] rounds and was cut off;
/// `rounds` and `steps` as in [`Factored`], the last step the one at the position.
#[derive(Clone, Debug)]
pub enum Ran {
    Ended(Factored),
    Stopped { at: usize, on: Stop, panel: Vec<f64>, steps: Vec<Step> },
    Unended { at: usize, rounds: Vec<(usize, usize)>, steps: Vec<Step> },
}

/// How far a run goes in.
#[derive(Clone, Copy)]
enum Way {
    /// `ll_cdiv_emit` alone.
    Factor,
    /// `ll_factor_node`: assembly, updates, then `ll_cdiv_emit`.
    Whole,
}

impl Node {
    /// A panel with rows 0, 1, .. and no neighbours.
    pub fn alone(ncol: usize, nrow: usize, panel: &[f64]) -> Node {
        let rows = (0..nrow as u32).collect();
        Node { ncol, rows, panel: panel.to_vec(), entries: Vec::new(), descendants: Vec::new() }
    }
}

/// `ll_cdiv_emit` on a panel. `floor` is Lift's; None is Fail.
pub fn factor(ncol: usize, nrow: usize, nb: usize, floor: Option<f64>, panel: &[f64]) -> Ran {
    ran(&Node::alone(ncol, nrow, panel), Way::Factor, nb, floor)
}

/// `ll_factor_node`, whole.
pub fn whole(node: &Node, nb: usize, floor: Option<f64>) -> Ran {
    ran(node, Way::Whole, nb, floor)
}

/// The panel as the assembly and the updates of `ll_factor_node` leave it:
/// a closed node pool ends the call before the factor step (see
/// [`ScratchPool`]).
pub fn updated(node: &Node) -> Vec<f64> {
    let site = Site::<f64>::new(node);
    let pools = BkPools { node: ScratchPool::closed(), w: ScratchPool::new(), cmod: ScratchPool::new() };
    match catch_unwind(AssertUnwindSafe(|| site.call(Way::Whole, &pools, 1, None))) {
        Err(why) if why.is::<Closed>() => site.panel(),
        Err(why) => resume_unwind(why),
        Ok(_) => panic!("the factor step did not ask its pool"),
    }
}

/// The leaf of a name on one or two numbers; None if there is no such leaf.
pub fn leaf(name: &str, a: f64, b: f64) -> Option<f64> {
    Some(match name {
        "sqrt" => a.sqrt(),
        "magnitude" => Scalar::magnitude(a),
        "square" => Scalar::magnitude_sq(a),
        "maximum" => a.max(b),
        "reciprocal" => Scalar::recip(a),
        "lift" => perturb_pivot(a, b),
        "alpha" => bk_alpha(),
        _ => return None,
    })
}

/// The settings of docs/SCOPE.md, "The reference". `panel_width` then gives `nb` itself.
fn settings(nb: usize) -> KernelTuning<'static> {
    let k = KernelSettings {
        panel_nb: nb,
        wide_panel_min_ncol: usize::MAX,
        scalar_gate: usize::MAX,
        fork_min_flops: usize::MAX,
        trailing_block: nb,
        use_gemm_schur: false,
        ..KernelSettings::default()
    };
    KernelTuning { k, pivot_threshold: 0.0, interrupt: None }
}

/// A run in f64, and a traced one beside it for what the reference does not say:
/// the test that decided on a pivot, the position of a stop and what it stopped on,
/// the rounds of a lift.
fn ran(node: &Node, way: Way, nb: usize, floor: Option<f64>) -> Ran {
    let (watched, trace) = traced::watch(|| run::<Traced>(node, way, nb, floor));
    let steps = trace.steps();
    let Some((traced_panel, traced_end)) = watched else {
        return Ran::Unended { at: trace.at, rounds: trace.rounds, steps };
    };
    let (panel, end) = run::<f64>(node, way, nb, floor);
    assert!(same(&panel, &traced_panel) && end.is_some() == traced_end.is_some(), "the trace went another way");
    match end {
        None => Ran::Stopped { at: trace.at, on: trace.stop(), panel, steps },
        Some(end) => Ran::Ended(Factored { panel, tests: tests(&steps), rounds: trace.rounds, steps, ..end }),
    }
}

/// The test number of each position: a block has its own at both.
fn tests(steps: &[Step]) -> Vec<u8> {
    steps.iter().flat_map(|step| vec![step.number(); if step.block { 2 } else { 1 }]).collect()
}

/// The panel as a run leaves it, and the rest of the answer if it ended.
fn run<T: Scalar>(node: &Node, way: Way, nb: usize, floor: Option<f64>) -> (Vec<f64>, Option<Factored>) {
    let site = Site::<T>::new(node);
    traced::begin(Panels { ncol: node.ncol, width: nb.min(node.ncol.max(1)), lifts: floor.is_some() });
    let ended = site.call(way, &BkPools::new(), nb, floor);
    (site.panel(), ended.then(|| site.factored(node)))
}

/// Equal by bits, any two not-a-numbers equal.
fn same(a: &[f64], b: &[f64]) -> bool {
    a.len() == b.len() && a.iter().zip(b).all(|(x, y)| x.to_bits() == y.to_bits() || (x.is_nan() && y.is_nan()))
}

/// The reference's own structures around one node.
struct Site<T> {
    sym: SymbolicFactorization,
    sched: LlSchedule,
    emit: LlEmitLdlt<T>,
    program: InputProgram,
    values: Vec<T>,
    /// The node among the supernodes.
    s: usize,
}

impl<T: Scalar> Site<T> {
    fn new(node: &Node) -> Self {
        let plan = Plan::new(node);
        let s = plan.s;
        let (col_ptr, row_idx, values) = plan.entries(node);
        let sym = plan.symbolic();
        let program = InputProgram::symmetric(&col_ptr, &row_idx, &sym.perm_inv);
        let sched = LlSchedule::build(&sym);
        let emit = emit_state(&sym, &sched);
        let site = Site { sym, sched, emit, program, values: values.into_iter().map(T::from_real).collect(), s };
        site.fill(s, &node.panel);
        for (k, of) in node.descendants.iter().enumerate() {
            site.fill(k, &of.panel);
            site.set_pivots(k, of);
        }
        site
    }

    fn fill(&self, k: usize, panel: &[f64]) {
        // SAFETY: nothing else holds the slot.
        let slot = unsafe { self.emit.arena.slot_mut(k) };
        assert_eq!(slot.len(), panel.len());
        for (to, &from) in slot.iter_mut().zip(panel) {
            *to = T::from_real(from);
        }
    }

    fn set_pivots(&self, k: usize, of: &Descendant) {
        for p in 0..of.ncol {
            let e = self.emit.e_offset[k] + p;
            // SAFETY: nothing else holds the cells.
            unsafe {
                self.emit.d_diag.set(e, T::from_real(of.d[p]));
                self.emit.d_subdiag.set(e, T::from_real(of.sub[p]));
                self.emit.two_by_two.set(e, of.blocks[p]);
            }
        }
    }

    /// Whether the call ended; a stop is the one other answer.
    fn call(&self, way: Way, pools: &BkPools<T>, nb: usize, floor: Option<f64>) -> bool {
        let (s, sym, sched, emit, kt) = (self.s, &self.sym, &self.sched, &self.emit, settings(nb));
        let answer = match way {
            // SAFETY: the call is the one that holds the slot.
            Way::Factor => ll_cdiv_emit(s, sym, sched, pools, emit, floor, kt, unsafe { emit.arena.slot_mut(s) }),
            Way::Whole => {
                let input = Input::new(&self.program, &self.values, None);
                ll_factor_node(s, sym, input, sched, pools, emit, floor, kt)
            }
        };
        match answer {
            Ok(()) => true,
            Err(crate::error::RslabError::NumericallyRankDeficient) => false,
            Err(other) => panic!("{other}"),
        }
    }

    fn panel(&self) -> Vec<f64> {
        // SAFETY: the call is over.
        unsafe { self.emit.arena.slot(self.s) }.iter().map(|x| x.real()).collect()
    }

    fn factored(&self, node: &Node) -> Factored {
        let (ncol, first) = (node.ncol, self.emit.e_offset[self.s]);
        // SAFETY: the call is over.
        let (d, sub, blocks) = unsafe { self.emit.d_of(self.s, ncol) };
        let head = unsafe { self.emit.perm.slice(first..first + ncol) };
        let (mut lifts, mut amounts) = (vec![false; ncol], vec![0.0; ncol]);
        for &(e, delta) in self.emit.floors.lock().unwrap().iter() {
            lifts[e - first] = true;
            amounts[e - first] = delta.real();
        }
        use std::sync::atomic::Ordering::Relaxed;
        Factored {
            panel: Vec::new(),
            d: d.iter().map(|x| x.real()).collect(),
            sub: sub.iter().map(|x| x.real()).collect(),
            blocks: blocks.to_vec(),
            lifts,
            amounts,
            tests: Vec::new(),
            order: head.iter().map(|g| g - first).chain(ncol..node.rows.len()).collect(),
            inertia: [&self.emit.inertia_pos, &self.emit.inertia_neg, &self.emit.inertia_zero].map(|n| n.load(Relaxed)),
            rounds: Vec::new(),
            steps: Vec::new(),
        }
    }
}

/// The emit state as `LlEmitLdlt::new`, private to its file, makes it.
fn emit_state<T: Scalar>(sym: &SymbolicFactorization, sched: &LlSchedule) -> LlEmitLdlt<T> {
    let n = sym.n;
    let (refcount, e_offset) = emit_refcount_offsets(sym, sched);
    let shapes =
        sym.supernodes.iter().enumerate().map(|(s, node)| slot_sizes(node.ncol, sched.rows(s).len() - node.ncol));
    LlEmitLdlt {
        refcount,
        e_offset,
        arena: PanelArena::new(shapes),
        panels: Cells::new_default(sym.supernodes.len()),
        e_of_g: Cells::new(n, usize::MAX),
        perm: Cells::new(n, 0),
        d_diag: Cells::new(n, T::zero()),
        d_subdiag: Cells::new(n, T::zero()),
        two_by_two: Cells::new(n, false),
        inertia_pos: Default::default(),
        inertia_neg: Default::default(),
        inertia_zero: Default::default(),
        floors: Default::default(),
    }
}

/// Where a node and its neighbours stand in a matrix: the descendants' columns
/// first, then every global row that is named, by its rank. Order and equality
/// of rows are all that the reference reads of them. Every column that belongs
/// to nobody is a supernode of its own.
struct Plan {
    n: usize,
    s: usize,
    first: usize,
    /// The node's rows as placed.
    rows: Vec<usize>,
    supernodes: Vec<Supernode>,
    /// The rows below each supernode, listed under its first column.
    below: Vec<Vec<usize>>,
}

impl Plan {
    fn new(node: &Node) -> Plan {
        let base: usize = node.descendants.iter().map(|k| k.ncol).sum();
        let mut named: Vec<u32> = node.rows.clone();
        named.extend(node.descendants.iter().flat_map(|k| &k.rows));
        named.sort_unstable();
        named.dedup();
        let place = |g: &u32| base + named.binary_search(g).unwrap();
        let rows: Vec<usize> = node.rows.iter().map(place).collect();
        let (n, first) = (base + named.len(), rows.first().map_or(base, |&r| r));
        let mut plan = Plan { n, s: 0, first, rows, supernodes: Vec::new(), below: Vec::new() };
        for k in &node.descendants {
            plan.add(k.ncol, k.rows.iter().map(place).collect());
        }
        (base..first).for_each(|_| plan.add(1, Vec::new()));
        plan.s = plan.supernodes.len();
        plan.add(node.ncol, plan.rows[node.ncol..].to_vec());
        (first + node.ncol..n).for_each(|_| plan.add(1, Vec::new()));
        plan
    }

    fn add(&mut self, ncol: usize, below: Vec<usize>) {
        let first_col = self.supernodes.last().map_or(0, |s| s.first_col + s.ncol);
        self.supernodes.push(Supernode { first_col, ncol, children: Vec::new() });
        self.below.push(below);
    }

    /// The entries as compressed columns, those of a column as listed.
    fn entries(&self, node: &Node) -> (Vec<usize>, Vec<usize>, Vec<f64>) {
        let (mut col_ptr, mut row_idx, mut values) = (vec![0], Vec::new(), Vec::new());
        for c in 0..self.n {
            for &(i, _, x) in node.entries.iter().filter(|e| self.first + e.1 == c) {
                row_idx.push(self.rows[i]);
                values.push(x);
            }
            col_ptr.push(values.len());
        }
        (col_ptr, row_idx, values)
    }

    fn symbolic(self) -> SymbolicFactorization {
        let mut pattern = CscPattern { n: self.n, col_ptr: vec![0], row_idx: Vec::new() };
        for (of, below) in self.supernodes.iter().zip(&self.below) {
            for c in 0..of.ncol {
                if c == 0 {
                    pattern.row_idx.extend(below.iter().map(|&r| r as i32));
                }
                pattern.col_ptr.push(pattern.row_idx.len() as i32);
            }
        }
        SymbolicFactorization {
            n: self.n,
            perm: (0..self.n).collect(),
            perm_inv: (0..self.n).collect(),
            supernodes: self.supernodes,
            factor_nnz: 0,
            pattern,
            resolved_method: OrderingMethod::Auto,
            resolved_amalgamation: AmalgamationStrategy::Auto,
        }
    }
}
