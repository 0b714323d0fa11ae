//! A node of the reference that is prepared once and run many times: `ready`
//! copies its panel in, `run` is `ll_cdiv_emit` alone. The build lays this file
//! below `reach.rs`, whose site and settings it takes.

use super::*;

pub struct Prepared {
    site: Site<f64>,
    pools: BkPools<f64>,
    tuning: KernelTuning<'static>,
    node: Node,
}

impl Prepared {
    pub fn new(ncol: usize, nrow: usize, nb: usize, panel: &[f64]) -> Prepared {
        let node = Node::alone(ncol, nrow, panel);
        Prepared { site: Site::new(&node), pools: BkPools::new(), tuning: settings(nb), node }
    }

    /// Before the clock: the panel as it is given, and no counts.
    pub fn ready(&self) {
        let emit = &self.site.emit;
        self.site.fill(self.site.s, &self.node.panel);
        for count in [&emit.inertia_pos, &emit.inertia_neg, &emit.inertia_zero] {
            count.store(0, std::sync::atomic::Ordering::Relaxed);
        }
    }

    /// Under the clock: whether the call ended.
    pub fn run(&self) -> bool {
        let Site { sym, sched, emit, s, .. } = &self.site;
        // SAFETY: the call is the one that holds the slot.
        let panel = unsafe { emit.arena.slot_mut(*s) };
        ll_cdiv_emit(*s, sym, sched, &self.pools, emit, None, self.tuning, panel).is_ok()
    }

    /// What the last run left.
    pub fn factored(&self) -> Factored {
        Factored { panel: self.site.panel(), ..self.site.factored(&self.node) }
    }
}
