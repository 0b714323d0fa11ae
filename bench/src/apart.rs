//! The memory of both sides. Each block begins 2,496 bytes further modulo 4,096
//! than the one before it, so that no two buffers of a call lie a few bytes apart
//! there, which would slow down either side by chance. What is given back is
//! kept for the next request of the same size: the reference takes its buffers
//! from a pool whose stand-in makes them anew in each run, and so pays some
//! nanoseconds for them, and never a page fault.

use std::alloc::{GlobalAlloc, Layout, System};
use std::cell::UnsafeCell;

const PAGE: usize = 4096;
const STEP: usize = 39 * 64;
const SIZES: usize = 1 << 12;

/// Blocks of one size that were given back, each holding the address of the next.
#[derive(Clone, Copy)]
struct Kept {
    size: usize,
    first: *mut u8,
}

pub struct Apart(UnsafeCell<(usize, [Kept; SIZES])>);

// SAFETY: the program has one thread.
unsafe impl Sync for Apart {}

impl Apart {
    pub const fn new() -> Apart {
        Apart(UnsafeCell::new((0, [Kept { size: 0, first: std::ptr::null_mut() }; SIZES])))
    }

    /// The place of a size; None where another size has it.
    fn kept(&self, size: usize) -> Option<&mut Kept> {
        // SAFETY: the program has one thread.
        let of = unsafe { &mut (*self.0.get()).1[(size.wrapping_mul(0x9E37_79B9) >> 8) % SIZES] };
        if of.size == 0 {
            of.size = size;
        }
        (of.size == size).then_some(of)
    }
}

/// A multiple of eight that can hold an address.
fn rounded(layout: Layout) -> usize {
    layout.size().max(8).next_multiple_of(8)
}

// SAFETY: a block is `rounded` bytes of a system block that is never given back, or a system block.
unsafe impl GlobalAlloc for Apart {
    unsafe fn alloc(&self, layout: Layout) -> *mut u8 {
        let size = rounded(layout);
        match self.kept(size) {
            None => System.alloc(layout),
            Some(of) if !of.first.is_null() => {
                let block = of.first;
                of.first = *block.cast::<*mut u8>();
                block
            }
            Some(_) => {
                assert!(layout.align() <= 64);
                let at = &mut (*self.0.get()).0;
                *at = (*at + STEP) % PAGE;
                let base = System.alloc(Layout::from_size_align_unchecked(size + *at, PAGE));
                base.add(*at)
            }
        }
    }

    unsafe fn dealloc(&self, block: *mut u8, layout: Layout) {
        match self.kept(rounded(layout)) {
            None => System.dealloc(block, layout),
            Some(of) => {
                *block.cast::<*mut u8>() = of.first;
                of.first = block;
            }
        }
    }
}
