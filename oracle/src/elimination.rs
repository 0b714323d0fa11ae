//! A node's elimination, restated from docs/SCOPE.md, "The exchange" to "The later columns", for what the reference
//! does not show: the node as it stands at each step. Head and tail rows go through every step together.

use crate::case::Settings;
use crate::rules::lift_rounds;
use rslab::reach;

/// A node as it stands: its panel, and for each row of it the row of the input that stands there.
#[derive(Clone)]
pub struct Node {
    pub ncol: usize,
    pub nrow: usize,
    panel: Vec<f64>,
    pub order: Vec<usize>,
}

/// What the pivot tests choose: their test number, and row imax (k itself if there is none).
#[derive(Clone, Copy)]
pub struct Choice {
    pub number: u8,
    pub imax: usize,
}

impl Choice {
    pub fn is_block(&self) -> bool {
        self.number == 4
    }

    /// The position that is moved at k and its partner, if rows are exchanged.
    pub fn exchange(&self, k: usize) -> Option<(usize, usize)> {
        let moved = if self.is_block() { k + 1 } else { k };
        (self.number > 2 && self.imax != moved).then_some((moved, self.imax))
    }
}

/// Position k of the panel kb..ke, which step comes there, and the node as it stands; the input too.
#[derive(Clone, Copy)]
pub struct At<'a> {
    pub node: &'a Node,
    pub input: &'a Node,
    pub floor: Option<f64>,
    pub step: usize,
    pub kb: usize,
    pub k: usize,
    pub ke: usize,
}

/// The pivot of a step that was taken: its position, its columns, d or d11, d21 and d22 as they are divided by.
struct Pivot {
    k: usize,
    columns: usize,
    d: [f64; 3],
}

/// A step that is being taken: where, what was chosen, the node after the exchange, the pivot before a lift (d, or d11,
/// d21 and d22) and after it, if it is lifted.
pub struct Taken<'a> {
    pub at: &'a At<'a>,
    pub choice: Choice,
    pub exchanged: &'a Node,
    pub pivot: [f64; 3],
    pub lifted: Option<[f64; 3]>,
}

impl Node {
    pub fn new(ncol: usize, nrow: usize, panel: &[f64]) -> Node {
        Node { ncol, nrow, panel: panel.to_vec(), order: (0..nrow).collect() }
    }

    fn place(&self, i: usize, j: usize) -> usize {
        i.max(j) + i.min(j) * self.nrow
    }

    /// Its rows and columns in an order that exchanges of columns have made.
    pub fn ordered(&self, order: &[usize]) -> Node {
        let lower = |j: usize| (0..self.nrow).map(move |i| if i < j { 0.0 } else { self.at(order[i], order[j]) });
        Node { panel: (0..self.ncol).flat_map(lower).collect(), order: order.to_vec(), ..*self }
    }

    /// a(i, j) of the symmetric matrix; one of the two is a column.
    pub fn at(&self, i: usize, j: usize) -> f64 {
        self.panel[self.place(i, j)]
    }

    fn set(&mut self, i: usize, j: usize, x: f64) {
        let place = self.place(i, j);
        self.panel[place] = x;
    }

    fn exchange(&mut self, p: usize, q: usize) {
        for i in (0..self.nrow).filter(|&i| i != p && i != q) {
            let (a, b) = (self.place(i, p), self.place(i, q));
            self.panel.swap(a, b);
        }
        let (a, b) = (self.place(p, p), self.place(q, q));
        self.panel.swap(a, b);
        self.order.swap(p, q);
    }

    /// "A 1x1 pivot", from the lift on.
    fn single(&mut self, k: usize, ke: usize, d: f64) {
        self.set(k, k, d);
        for j in k + 1..ke {
            let m = self.at(j, k) * (1.0 / d);
            if m != 0.0 {
                (j..self.nrow).for_each(|i| self.set(i, j, self.at(i, j) - self.at(i, k) * m));
            }
        }
        (k + 1..self.nrow).for_each(|i| self.set(i, k, self.at(i, k) * (1.0 / d)));
    }

    /// "A block", from the lift on.
    fn block(&mut self, k: usize, ke: usize, [d11, d21, d22]: [f64; 3]) {
        let inverse = 1.0 / (d11 * d22 - d21 * d21);
        let multipliers = |a: f64, b: f64| ((d22 * a - d21 * b) * inverse, (d11 * b - d21 * a) * inverse);
        let of = |node: &Node, i: usize| multipliers(node.at(i, k), node.at(i, k + 1));
        for j in k + 2..ke {
            let (l1, l2) = of(self, j);
            (j..self.nrow).for_each(|i| self.set(i, j, (self.at(i, j) - self.at(i, k) * l1) - self.at(i, k + 1) * l2));
        }
        for i in k + 2..self.nrow {
            let (l1, l2) = of(self, i);
            self.set(i, k, l1);
            self.set(i, k + 1, l2);
        }
    }

    /// "The later columns" of a panel with these pivots.
    fn later(&mut self, ke: usize, pivots: &[Pivot]) {
        for j in ke..self.ncol {
            for i in j..self.nrow {
                let mut acc = 0.0;
                for &Pivot { k, columns, d: [d11, d21, d22] } in pivots {
                    if columns == 1 {
                        acc += (self.at(i, k) * d11) * self.at(j, k);
                    } else {
                        let (a, b) = (self.at(i, k), self.at(i, k + 1));
                        acc += (a * d11 + b * d21) * self.at(j, k);
                        acc += (a * d21 + b * d22) * self.at(j, k + 1);
                    }
                }
                self.set(i, j, self.at(i, j) - acc);
            }
        }
    }

    /// The pivot that was chosen at k, where it stands now.
    fn pivot(&self, k: usize, choice: Choice) -> [f64; 3] {
        match choice.is_block() {
            false => [self.at(k, k), 0.0, 0.0],
            true => [self.at(k, k), self.at(k + 1, k), self.at(k + 1, k + 1)],
        }
    }

    /// The step at a position: the exchange, the lift, the elimination in the panel.
    fn take(&mut self, at: &At, choice: Choice, each: &mut impl FnMut(&Taken)) -> Pivot {
        let (k, columns) = (at.k, if choice.is_block() { 2 } else { 1 });
        if let Some((moved, partner)) = choice.exchange(k) {
            self.exchange(moved, partner);
        }
        let pivot = self.pivot(k, choice);
        let lifted = at.floor.and_then(|floor| lift(floor, choice, pivot));
        each(&Taken { at, choice, exchanged: self, pivot, lifted });
        let d = lifted.unwrap_or(pivot);
        match choice.is_block() {
            false => self.single(k, at.ke, d[0]),
            true => self.block(k, at.ke, d),
        }
        Pivot { k, columns, d }
    }
}

/// The pivot as it is lifted, if it is.
fn lift(floor: f64, choice: Choice, [d11, d21, d22]: [f64; 3]) -> Option<[f64; 3]> {
    if !choice.is_block() {
        return (d11.abs() < floor).then(|| [reach::leaf("lift", d11, floor).expect("a leaf"), 0.0, 0.0]);
    }
    let (rounds, sum) = lift_rounds(floor, d11, d21, d22);
    (rounds > 0).then_some([d11 + sum, d21, d22 + sum])
}

/// Takes a node's steps up to a position, each as `choose` says, and shows them to `each`. The choices with their
/// positions, that at the last position too, which is not taken; and the node as it is left. What is refused on the way
/// is the caller's to know.
pub fn walk(
    s: &Settings,
    panel: &[f64],
    until: usize,
    choose: impl Fn(&At) -> Choice,
    mut each: impl FnMut(&Taken),
) -> (Vec<(usize, Choice)>, Node) {
    let input = &Node::new(s.ncol, s.nrow, panel);
    let (mut node, mut choices, width) = (input.clone(), Vec::new(), s.nb.min(s.ncol.max(1)));
    for kb in (0..s.ncol).step_by(width) {
        let (ke, mut k, mut pivots) = (s.ncol.min(kb + width), kb, Vec::new());
        while k < ke {
            let before = node.clone();
            let at = At { node: &before, input, floor: s.mode.floor(), step: choices.len(), kb, k, ke };
            let choice = choose(&at);
            choices.push((k, choice));
            if k == until {
                return (choices, before);
            }
            let pivot = node.take(&at, choice, &mut each);
            k += pivot.columns;
            pivots.push(pivot);
        }
        node.later(ke, &pivots);
    }
    (choices, node)
}
