//! What the kernels share: cells and pools written by one task, and the
//! names of the submodules.

pub(crate) mod input;
pub(crate) mod node;
pub(crate) mod panel;
pub(crate) mod schedule;

pub(crate) use input::{Input, InputProgram};
pub(crate) use node::{perturb_pivot, CmodPlan, Gloc, Span};
pub(crate) use schedule::{emit_refcount_offsets, Li, LlSchedule};

use std::cell::UnsafeCell;
use std::ops::{Deref, DerefMut};

/// A pointer into the panel arena.
pub(crate) struct PanelPtr<T>(pub *mut T);
unsafe impl<T> Send for PanelPtr<T> {}
unsafe impl<T> Sync for PanelPtr<T> {}
impl<T> PanelPtr<T> {
    pub fn get(&self) -> *mut T {
        self.0
    }
}

/// Cells that are written through a shared reference, each by one owner.
pub(crate) struct Cells<T>(UnsafeCell<Vec<T>>);
unsafe impl<T: Send> Sync for Cells<T> {}

impl<T: Clone> Cells<T> {
    pub fn new(n: usize, x: T) -> Self {
        Cells(UnsafeCell::new(vec![x; n]))
    }
}

impl<T> Cells<T> {
    pub fn new_default(n: usize) -> Self
    where
        T: Default,
    {
        Cells(UnsafeCell::new((0..n).map(|_| T::default()).collect()))
    }
    pub unsafe fn set(&self, i: usize, x: T) {
        *self.get_mut(i) = x;
    }
    pub unsafe fn get(&self, i: usize) -> &T {
        &(&*self.0.get())[i]
    }
    pub unsafe fn get_mut(&self, i: usize) -> &mut T {
        &mut (&mut *self.0.get())[i]
    }
    pub unsafe fn slice(&self, r: std::ops::Range<usize>) -> &[T] {
        &(&*self.0.get())[r]
    }
}

/// A pool that lends a fresh value. A closed pool ends the call that asks it
/// instead, by an unwind with the payload [`Closed`]: `ll_cdiv_emit` asks its
/// node pool after the updates and before it reads the panel, so a closed
/// node pool leaves the panel as assembly and updates left it.
pub(crate) struct ScratchPool<T> {
    closed: bool,
    of: std::marker::PhantomData<T>,
}

/// The payload of the unwind of a closed pool.
pub(crate) struct Closed;

pub(crate) struct Lent<T>(T);

impl<T: Default> ScratchPool<T> {
    pub fn take(&self) -> Lent<T> {
        if self.closed {
            std::panic::resume_unwind(Box::new(Closed));
        }
        Lent(T::default())
    }
}

impl<T> ScratchPool<T> {
    pub fn new() -> Self {
        ScratchPool { closed: false, of: std::marker::PhantomData }
    }
    pub fn closed() -> Self {
        ScratchPool { closed: true, of: std::marker::PhantomData }
    }
}

impl<T> Deref for Lent<T> {
    type Target = T;
    fn deref(&self) -> &T {
        &self.0
    }
}

impl<T> DerefMut for Lent<T> {
    fn deref_mut(&mut self) -> &mut T {
        &mut self.0
    }
}

pub(crate) mod analysis {
    use super::{InputProgram, LlSchedule};
    use crate::symbolic::SymbolicFactorization;

    pub struct SupernodalAnalysis {
        pub n: usize,
        pub nnz: usize,
        pub inner: Option<Inner>,
    }
    pub struct Inner {
        pub sym: SymbolicFactorization,
        pub input: std::sync::OnceLock<InputProgram>,
    }
    impl Inner {
        pub fn schedule(&self) -> &LlSchedule {
            crate::left_out()
        }
    }
    pub fn recommend_threads_for_sym(_: &SupernodalAnalysis, _: usize) -> usize {
        crate::left_out()
    }
}

pub(crate) fn ll_forest<E>(
    _: &crate::symbolic::SymbolicFactorization,
    _: &LlSchedule,
    _: &[std::sync::atomic::AtomicUsize],
    _: &impl Fn(usize) -> Result<(), E>,
    _: &impl Fn(usize),
) -> Result<(), E> {
    crate::left_out()
}
