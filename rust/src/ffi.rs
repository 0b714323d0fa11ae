//! The C interface as `crates/capi` exports it, and one safe function for each of its calls. A slice crosses as its
//! pointer and its length. The only unsafe code of the crate is here.

use crate::{Buffers, Descendant, Entries, Settings, Target};

/// What a call answers. Number 0 is acceptance.
#[repr(C)]
pub struct Outcome {
    pub number: usize,
    pub a: usize,
    pub b: usize,
    pub rounds: usize,
    pub positive: usize,
    pub negative: usize,
    pub zero: usize,
}

// SAFETY: these are the names, the arguments and the results of the exports of `crates/capi/src/lib.rt`. The leaves
// take and give numbers alone, so any call of them is sound.
unsafe extern "C" {
    pub safe fn misuktaan_is_finite(x: f64) -> bool;
    pub safe fn misuktaan_magnitude_bits(bits: u64) -> u64;
    pub safe fn misuktaan_square(x: f64) -> f64;
    pub safe fn misuktaan_maximum(a: f64, b: f64) -> f64;
    pub safe fn misuktaan_reciprocal(x: f64) -> f64;
    pub safe fn misuktaan_lift(floor: f64, d: f64) -> f64;
    pub safe fn misuktaan_sqrt(x: f64) -> f64;

    fn misuktaan_factor(
        ncol: usize,
        nrow: usize,
        nb: usize,
        lift: bool,
        floor: f64,
        limit: usize,
        input: *const f64,
        input_len: usize,
        panel: *mut f64,
        panel_len: usize,
        d: *mut f64,
        d_len: usize,
        sub: *mut f64,
        sub_len: usize,
        blocks: *mut u8,
        blocks_len: usize,
        lifted: *mut u8,
        lifted_len: usize,
        amounts: *mut f64,
        amounts_len: usize,
        tests: *mut u8,
        tests_len: usize,
        order: *mut usize,
        order_len: usize,
        marks: *mut u8,
        marks_len: usize,
        work: *mut f64,
        work_len: usize,
    ) -> Outcome;

    fn misuktaan_inertia(
        d: *const f64,
        d_len: usize,
        sub: *const f64,
        sub_len: usize,
        blocks: *const u8,
        blocks_len: usize,
    ) -> Outcome;

    fn misuktaan_assemble(
        ncol: usize,
        nrow: usize,
        rows: *const usize,
        rows_len: usize,
        cols: *const usize,
        cols_len: usize,
        numbers: *const f64,
        numbers_len: usize,
        panel: *mut f64,
        panel_len: usize,
    ) -> Outcome;

    fn misuktaan_update(
        ncol: usize,
        nrow: usize,
        first: u32,
        rows: *const u32,
        rows_len: usize,
        panel: *mut f64,
        panel_len: usize,
        nk: usize,
        mk: usize,
        kpanel: *const f64,
        kpanel_len: usize,
        kd: *const f64,
        kd_len: usize,
        ksub: *const f64,
        ksub_len: usize,
        kblocks: *const u8,
        kblocks_len: usize,
        krows: *const u32,
        krows_len: usize,
    ) -> Outcome;

    fn misuktaan_solve(
        ncol: usize,
        nrow: usize,
        panel: *const f64,
        panel_len: usize,
        d: *const f64,
        d_len: usize,
        sub: *const f64,
        sub_len: usize,
        blocks: *const u8,
        blocks_len: usize,
        order: *const usize,
        order_len: usize,
        vector: *mut f64,
        vector_len: usize,
    ) -> Outcome;

    fn misuktaan_to_lapack(
        ncol: usize,
        order: *const usize,
        order_len: usize,
        blocks: *const u8,
        blocks_len: usize,
        list: *mut i32,
        list_len: usize,
    ) -> Outcome;

    fn misuktaan_from_lapack(
        ncol: usize,
        list: *const i32,
        list_len: usize,
        order: *mut usize,
        order_len: usize,
        blocks: *mut u8,
        blocks_len: usize,
    ) -> Outcome;
}

#[rustfmt::skip]
pub fn factor(s: &Settings, input: &[f64], lent: Buffers<'_>) -> Outcome {
    let (lift, floor) = s.mode.flag_and_floor();
    let Buffers { panel, d, sub, blocks, lifted, amounts, tests, order, marks, work } = lent;
    // SAFETY: each pointer comes with the length of its own slice. The slices are live for the call, and no `&mut`
    // of them overlaps another slice. The call reads and writes within the lengths, whatever they are, and keeps no
    // pointer.
    unsafe {
        misuktaan_factor(
            s.ncol, s.nrow, s.nb, lift, floor, s.limit,
            input.as_ptr(), input.len(),
            panel.as_mut_ptr(), panel.len(),
            d.as_mut_ptr(), d.len(),
            sub.as_mut_ptr(), sub.len(),
            blocks.as_mut_ptr(), blocks.len(),
            lifted.as_mut_ptr(), lifted.len(),
            amounts.as_mut_ptr(), amounts.len(),
            tests.as_mut_ptr(), tests.len(),
            order.as_mut_ptr(), order.len(),
            marks.as_mut_ptr(), marks.len(),
            work.as_mut_ptr(), work.len(),
        )
    }
}

#[rustfmt::skip]
pub fn inertia(d: &[f64], sub: &[f64], blocks: &[u8]) -> Outcome {
    // SAFETY: each pointer comes with the length of its own slice, live for the call, which only reads within them.
    unsafe {
        misuktaan_inertia(
            d.as_ptr(), d.len(),
            sub.as_ptr(), sub.len(),
            blocks.as_ptr(), blocks.len(),
        )
    }
}

#[rustfmt::skip]
pub fn assemble(ncol: usize, nrow: usize, entries: &Entries<'_>, panel: &mut [f64]) -> Outcome {
    let Entries { rows, cols, numbers } = entries;
    // SAFETY: each pointer comes with the length of its own slice, live for the call; `panel` overlaps no other.
    // The call reads and writes within the lengths, whatever they are, and keeps no pointer.
    unsafe {
        misuktaan_assemble(
            ncol, nrow,
            rows.as_ptr(), rows.len(),
            cols.as_ptr(), cols.len(),
            numbers.as_ptr(), numbers.len(),
            panel.as_mut_ptr(), panel.len(),
        )
    }
}

#[rustfmt::skip]
pub fn update(t: &Target<'_>, panel: &mut [f64], k: &Descendant<'_>) -> Outcome {
    // SAFETY: each pointer comes with the length of its own slice, live for the call; `panel` overlaps no other.
    // The call reads and writes within the lengths, whatever they are, and keeps no pointer.
    unsafe {
        misuktaan_update(
            t.ncol, t.nrow, t.first,
            t.rows.as_ptr(), t.rows.len(),
            panel.as_mut_ptr(), panel.len(),
            k.nk, k.mk,
            k.panel.as_ptr(), k.panel.len(),
            k.d.as_ptr(), k.d.len(),
            k.sub.as_ptr(), k.sub.len(),
            k.blocks.as_ptr(), k.blocks.len(),
            k.rows.as_ptr(), k.rows.len(),
        )
    }
}

#[rustfmt::skip]
#[allow(clippy::too_many_arguments)]
pub fn solve(
    ncol: usize, nrow: usize, panel: &[f64], d: &[f64], sub: &[f64], blocks: &[u8], order: &[usize], vector: &mut [f64],
) -> Outcome {
    // SAFETY: each pointer comes with the length of its own slice, live for the call; `vector` overlaps no other.
    // The call reads and writes within the lengths, whatever they are, and keeps no pointer.
    unsafe {
        misuktaan_solve(
            ncol, nrow,
            panel.as_ptr(), panel.len(),
            d.as_ptr(), d.len(),
            sub.as_ptr(), sub.len(),
            blocks.as_ptr(), blocks.len(),
            order.as_ptr(), order.len(),
            vector.as_mut_ptr(), vector.len(),
        )
    }
}

#[rustfmt::skip]
pub fn to_lapack(ncol: usize, order: &[usize], blocks: &[u8], list: &mut [i32]) -> Outcome {
    // SAFETY: each pointer comes with the length of its own slice, live for the call; `list` overlaps no other.
    // The call reads and writes within the lengths, whatever they are, and keeps no pointer.
    unsafe {
        misuktaan_to_lapack(
            ncol,
            order.as_ptr(), order.len(),
            blocks.as_ptr(), blocks.len(),
            list.as_mut_ptr(), list.len(),
        )
    }
}

#[rustfmt::skip]
pub fn from_lapack(ncol: usize, list: &[i32], order: &mut [usize], blocks: &mut [u8]) -> Outcome {
    // SAFETY: each pointer comes with the length of its own slice, live for the call; neither `order` nor `blocks`
    // overlaps another. The call reads and writes within the lengths, whatever they are, and keeps no pointer.
    unsafe {
        misuktaan_from_lapack(
            ncol,
            list.as_ptr(), list.len(),
            order.as_mut_ptr(), order.len(),
            blocks.as_mut_ptr(), blocks.len(),
        )
    }
}
