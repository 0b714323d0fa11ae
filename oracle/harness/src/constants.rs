//! The reference's constants. GROWTH_EPS is the one that a run reads, with the
//! value of docs/SCOPE.md, "The leaves". The others only fill defaults that the oracle
//! overwrites (`reach::settings`) or that no run reads: they are all zero.

pub const GROWTH_EPS: f64 = 1e-14;

/// Entries of a chunk of the panel arena's zero fill; any number above 0.
pub const ZERO_FILL_CHUNK: usize = 1 << 16;

macro_rules! unread {
    ($($name:ident: $t:ty),* $(,)?) => { $(pub const $name: $t = 0 as $t;)* };
}

unread! {
    BK_ROW_BUFFERS: usize, CMOD_TILES: usize, CMOD_TILE_MAX: usize, CMOD_TILE_MIN: usize,
    COMPLEX_SPLIT_MIN_RATIO: usize, COMPLEX_SPLIT_TILE: usize, COMPRESS_MAX_RATIO: f64,
    DEFAULT_MAX_THREADS: usize, FORK_MIN_FLOPS: usize, HOP_STACK: usize, IDX32_BYTES: usize,
    LU_PANEL_NB: usize, LU_PIVOT_THRESHOLD: f64, MATCHING_NEGLIGIBLE_DIAGONAL: f64, NEMIN: usize,
    PANEL_NB: usize, PANEL_NB_MIN: usize, PAR_CDIV_MIN_FLOPS: usize, PAR_GEMM_MIN_FLOPS: usize,
    PATH_LIKE_FRACTION: f64, POOLS_KEPT: usize, RACE_ASSUMED_WORKERS: usize,
    RACE_EAGER_ND_MIN_NNZ: usize, RACE_ENSEMBLE_MIN_FLOPS: u64, RACE_ENSEMBLE_SIZE: usize,
    RACE_ND_MIN_N: usize, RACE_ND_MIN_WORK: u64, RELAX_MIN_N: usize, ROOT_CAP_FRACTION: f64,
    ROOT_CAP_MAX: usize, ROOT_CAP_MIN_N: usize, SCALAR_GATE: usize, SCHUR_TILE: usize,
    SOLVE_LEAF_SUBTREES: usize, STACK_MAX: usize, STACK_MIN: usize, STACK_PER_LEVEL: usize,
    TRAILING_BLOCK: usize, TRSM_ROWS: usize, WIDE_PANEL_MIN_NCOL: usize, WIDE_PANEL_NB: usize,
}
