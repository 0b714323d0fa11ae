//! The leaves that the calls are made of, for tests and for those who compare. They refuse nothing. A not-a-number
//! that is worked out has any bits that are a not-a-number's; only the magnitude's are promised.
//!
//! ```
//! use misuktaan::leaves;
//!
//! assert_eq!(leaves::sqrt(2.0), 2.0_f64.sqrt());
//! assert_eq!(leaves::lift(0.5, -0.25), -0.5);
//! let lost = f64::from_bits(0xFFF0_0000_0000_0007);
//! assert_eq!(leaves::magnitude(lost).to_bits(), 0x7FF0_0000_0000_0007);
//! ```

use crate::ffi;

/// Whether x is neither a not-a-number nor an infinity.
pub fn is_finite(x: f64) -> bool {
    ffi::misuktaan_is_finite(x)
}

/// The bits of a number with the sign's, bit 63, cleared and every other kept; those of a not-a-number likewise.
pub fn magnitude_bits(bits: u64) -> u64 {
    ffi::misuktaan_magnitude_bits(bits)
}

/// x with its sign cleared, that of a zero too. A not-a-number loses its sign and keeps its payload; a signalling one
/// stays signalling.
pub fn magnitude(x: f64) -> f64 {
    f64::from_bits(magnitude_bits(x.to_bits()))
}

/// x * x, rounded once.
pub fn square(x: f64) -> f64 {
    ffi::misuktaan_square(x)
}

/// The greater of a and b, the first of equals; of a number and a not-a-number the number.
pub fn maximum(a: f64, b: f64) -> f64 {
    ffi::misuktaan_maximum(a, b)
}

/// 1 / x, rounded once.
pub fn reciprocal(x: f64) -> f64 {
    ffi::misuktaan_reciprocal(x)
}

/// d if |d| >= floor; floor if d is a zero; else d * (floor / |d|).
pub fn lift(floor: f64, d: f64) -> f64 {
    ffi::misuktaan_lift(floor, d)
}

/// The square root, correctly rounded: -0.0 of -0.0, a not-a-number below zero.
pub fn sqrt(x: f64) -> f64 {
    ffi::misuktaan_sqrt(x)
}
