//! The race of orderings is left out.

use super::*;

pub struct Prefix;

pub fn race(_: &OrderingGraph, _: &OrderingSettings) -> Result<Prefix, RslabError> {
    crate::left_out()
}
pub fn prefix(_: &OrderingGraph, _: &OrderingSettings, _: OrderingMethod, _: u64) -> Result<Prefix, RslabError> {
    crate::left_out()
}
pub fn finish(_: Prefix, _: CscPattern<i32>, _: &AmalgamationSettings) -> Result<SymbolicFactorization, RslabError> {
    crate::left_out()
}
