//! The reference crate with stand-ins for the files that were not published
//! with it. The build lays these files and the unchanged sources out in one
//! tree. Plain containers run; every other stand-in panics.
#![allow(warnings)]

// The outside crates live in this one, under their own names.
extern crate self as gemm;
extern crate self as num_complex;
extern crate self as rayon;
extern crate self as rslab_amd;
extern crate self as rslab_amf;
extern crate self as rslab_metis;
pub use crates::*;

pub mod constants;
mod crates;
pub mod error;
pub mod inertia;
pub mod numeric;
pub mod scalar;
pub mod sparse;
pub mod symbolic;

pub use numeric::ldlt::reach;
pub use numeric::settings::KernelSettings;

/// What a stand-in does that no run may reach.
#[track_caller]
pub(crate) fn left_out() -> ! {
    panic!("a stand-in ran that has no behaviour")
}

pub mod memory {
    pub trait HeapBytes {
        fn heap_bytes(&self) -> u64;
    }
    pub fn vec_bytes<T>(_: &Vec<T>) -> u64 {
        crate::left_out()
    }
    pub fn grown(_: usize, _: usize) -> usize {
        crate::left_out()
    }
}

pub mod logging {
    pub fn timed<R>(_: impl FnOnce() -> String, _: impl FnOnce() -> R) -> R {
        crate::left_out()
    }
}

pub mod parallel {
    pub struct Work;
    impl Work {
        pub fn ns(_: f64) -> Work {
            Work
        }
    }
    /// One thread: the chunks in turn. The panel arena fills its zeros by it.
    pub fn chunks_mut<T>(all: &mut [T], size: usize, _: Work, f: impl Fn(usize, &mut [T])) {
        all.chunks_mut(size).enumerate().for_each(|(i, chunk)| f(i, chunk));
    }
    pub fn for_each(_: usize, _: Work, _: impl Fn(usize)) {
        crate::left_out()
    }
    pub fn join<A, B>(_: Work, _: impl FnOnce() -> A, _: impl FnOnce() -> B) -> (A, B) {
        crate::left_out()
    }
    pub fn threads() -> usize {
        crate::left_out()
    }
    pub fn is_lent() -> bool {
        crate::left_out()
    }
    pub fn prepare() {
        crate::left_out()
    }
}

pub mod scaling {
    #[derive(Debug, Clone)]
    pub enum ScalingStrategy {
        OnePassInfNorm,
        InfNorm,
        Identity,
        Mc64Symmetric,
        External(Vec<f64>),
    }
}

pub mod refine {
    #[derive(Debug, Clone, Copy, PartialEq)]
    pub struct PivotFloor<T> {
        pub row: usize,
        pub col: usize,
        pub delta: T,
    }
}

pub mod dense {
    pub mod gemm_backend {
        use crate::{KernelSettings, Parallelism};
        #[derive(Clone, Copy)]
        pub struct GemmMode {
            pub parallelism: Parallelism,
        }
        impl GemmMode {
            pub fn new(_: Parallelism, _: &KernelSettings) -> Self {
                crate::left_out()
            }
        }
        pub fn split_plane_entries(_: usize, _: usize, _: usize, _: bool, _: &KernelSettings) -> usize {
            crate::left_out()
        }
        pub unsafe fn gemm<T>(
            _: usize,
            _: usize,
            _: usize,
            _: *mut T,
            _: isize,
            _: isize,
            _: bool,
            _: *const T,
            _: isize,
            _: isize,
            _: *const T,
            _: isize,
            _: isize,
            _: T,
            _: T,
            _: bool,
            _: bool,
            _: bool,
            _: GemmMode,
        ) {
            crate::left_out()
        }
        pub use gemm as complex_gemm;
    }
}
