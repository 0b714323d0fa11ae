//! The magnitude and its bits, a not-a-number's too: the sign is cleared and every other bit kept, at all special bits
//! and at ten million random ones. `tests/magnitude.c` has the same from C, with wrong answers that the special bits
//! tell.

use misuktaan::leaves;

const SIGN: u64 = 1 << 63;
const FRACTION: u64 = (1 << 52) - 1;
const MIDDLE: u64 = 1 << 51;

#[track_caller]
fn cleared(bits: u64) {
    let must = bits << 1 >> 1;
    assert_eq!(leaves::magnitude_bits(bits), must, "{bits:016X}");
    assert_eq!(leaves::magnitude(f64::from_bits(bits)).to_bits(), must, "{bits:016X}");
}

/// Every exponent with the fractions at its ends and its middle; beside zero and infinity each bit of a fraction.
#[test]
fn at_special_bits() {
    let fractions = [0, 1, 2, MIDDLE - 1, MIDDLE, MIDDLE + 1, FRACTION - 1, FRACTION];
    let by_exponent = (0..2048).flat_map(|e: u64| fractions.map(|f| e << 52 | f));
    let by_bit = (0..52).flat_map(|i| [1 << i, 0x7FF << 52 | 1 << i]);
    for bits in by_exponent.chain(by_bit) {
        cleared(bits);
        cleared(bits | SIGN);
    }
}

#[test]
fn at_random_bits() {
    let mut seed = 1_u64;
    for _ in 0..10_000_000 {
        seed = seed.wrapping_mul(0x5851_F42D_4C95_7F2D).wrapping_add(0x1405_7B7E_F767_814F);
        cleared(seed ^ seed >> 29);
    }
}
