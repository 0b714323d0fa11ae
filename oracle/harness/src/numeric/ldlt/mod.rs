//! The LDL^T kernel, and the oracle's way in: `ll_factor_node` and
//! `ll_cdiv_emit` are visible in this module alone.

mod bunch_kaufman;
mod factor;
mod gemm;
mod node;
mod pivots;
pub mod reach;
mod traced;
