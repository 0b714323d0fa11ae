//! Column counts are left out.

pub fn column_counts_gnp() {
    crate::left_out()
}
pub fn total_factor_nnz() {
    crate::left_out()
}
