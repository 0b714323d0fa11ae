//! Stand-ins for the crates gemm, num_complex, rayon, rslab_amd, rslab_amf and
//! rslab_metis. None of their functions runs.

use crate::left_out;
use std::ops::{Add, Div, Mul, Neg, Sub};

// gemm
#[derive(Clone, Copy)]
pub enum Parallelism {
    None,
    Rayon(usize),
}

pub unsafe fn gemm<T>(
    _: usize,
    _: usize,
    _: usize,
    _: *mut T,
    _: isize,
    _: isize,
    _: bool,
    _: *const T,
    _: isize,
    _: isize,
    _: *const T,
    _: isize,
    _: isize,
    _: T,
    _: T,
    _: bool,
    _: bool,
    _: bool,
    _: Parallelism,
) {
    left_out()
}

// num_complex
#[derive(Clone, Copy, Debug, PartialEq)]
pub struct Complex<F> {
    pub re: F,
    pub im: F,
}

impl<F> Complex<F> {
    pub fn new(re: F, im: F) -> Self {
        Complex { re, im }
    }
    pub fn norm(&self) -> f64 {
        left_out()
    }
    pub fn norm_sqr(&self) -> f64 {
        left_out()
    }
    pub fn conj(&self) -> Self {
        left_out()
    }
    pub fn inv(&self) -> Self {
        left_out()
    }
}

macro_rules! binary {
    ($($op:ident $f:ident),*) => {$(
        impl<F> $op for Complex<F> {
            type Output = Self;
            fn $f(self, _: Self) -> Self {
                left_out()
            }
        }
    )*};
}
binary!(Add add, Sub sub, Mul mul, Div div);

impl<F> Neg for Complex<F> {
    type Output = Self;
    fn neg(self) -> Self {
        left_out()
    }
}

// rayon
pub struct ThreadPool;
impl ThreadPool {
    pub fn install<R>(&self, _: impl FnOnce() -> R) -> R {
        left_out()
    }
    pub fn current_thread_index(&self) -> Option<usize> {
        left_out()
    }
}

pub struct ThreadPoolBuilder;
impl ThreadPoolBuilder {
    pub fn new() -> Self {
        left_out()
    }
    pub fn num_threads(self, _: usize) -> Self {
        left_out()
    }
    pub fn start_handler(self, _: impl Fn(usize)) -> Self {
        left_out()
    }
    pub fn stack_size(self, _: usize) -> Self {
        left_out()
    }
    pub fn build(self) -> Result<ThreadPool, ()> {
        left_out()
    }
}

pub fn current_num_threads() -> usize {
    left_out()
}
pub fn current_thread_index() -> Option<usize> {
    left_out()
}

// rslab_amd, rslab_amf, rslab_metis
#[derive(Debug, Clone, Default)]
pub struct AmdOptions;
#[derive(Debug, Clone, Default)]
pub struct AmfOptions;
#[derive(Debug, Clone, Default)]
pub struct MetisOptions {
    pub seed: u64,
}
