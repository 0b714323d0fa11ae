//! The numeric phase: the modules that the scalar LDL^T path touches.

pub(crate) mod gemm_tuning;
pub mod ldlt;
pub mod settings;
pub(crate) mod supernodal;
