//! LAPACK's unblocked factorization of a symmetric matrix by its lower triangle, and the solve with it for one right
//! side.

// SAFETY: declared as Fortran's compiler passes them, the length of `uplo` last.
unsafe extern "C" {
    fn dsytf2_(
        uplo: *const u8,
        n: *const i32,
        a: *mut f64,
        lda: *const i32,
        ipiv: *mut i32,
        info: *mut i32,
        uplo_len: usize,
    );

    fn dsytrs_(
        uplo: *const u8,
        n: *const i32,
        nrhs: *const i32,
        a: *const f64,
        lda: *const i32,
        ipiv: *const i32,
        b: *mut f64,
        ldb: *const i32,
        info: *mut i32,
        uplo_len: usize,
    );
}

/// LAPACK's leading dimensions are at least 1.
fn leading(n: usize) -> i32 {
    n.max(1) as i32
}

pub fn dsytf2(n: usize, a: &mut [f64], pivots: &mut [i32]) {
    assert!(a.len() == n * n && pivots.len() == n);
    let (order, lda, mut info) = (n as i32, leading(n), 0);
    // SAFETY: the lengths are those that the call is told of.
    unsafe { dsytf2_(b"L".as_ptr(), &order, a.as_mut_ptr(), &lda, pivots.as_mut_ptr(), &mut info, 1) };
    assert_eq!(info, 0, "dsytf2");
}

pub fn dsytrs(n: usize, a: &[f64], pivots: &[i32], b: &mut [f64]) {
    assert!(a.len() == n * n && pivots.len() == n && b.len() == n);
    let (order, lda, mut info) = (n as i32, leading(n), 0);
    // SAFETY: the lengths are those that the call is told of; a and pivots are what dsytf2 left of this n.
    unsafe {
        dsytrs_(b"L".as_ptr(), &order, &1, a.as_ptr(), &lda, pivots.as_ptr(), b.as_mut_ptr(), &lda, &mut info, 1)
    };
    assert_eq!(info, 0, "dsytrs");
}
