//! The magnitude of bits: the reference's own, bits that tell it from wrong readings
//! of docs/SCOPE.md, "The leaves", and these readings.

use rslab::reach;

const SIGN: u64 = 1 << 63;

/// The reference's, of a not-a-number bit for bit.
pub fn magnitude(bits: u64) -> u64 {
    reach::leaf("magnitude", f64::from_bits(bits), 0.0).expect("a leaf").to_bits()
}

/// Bits of which a wrong reading has another magnitude.
pub const TELLING: [(&str, u64); 9] = [
    ("a not-a-number loses its sign", 0xFFF8_0000_0000_0000),
    ("a not-a-number's payload stays", 0xFFF8_0000_0000_0ABC),
    ("a not-a-number of no sign stays as it is", 0x7FFF_FFFF_FFFF_FFFF),
    ("a signalling not-a-number is not made quiet", 0xFFF0_0000_0000_0001),
    ("a zero loses its sign", SIGN),
    ("an infinity loses its sign", 0xFFF0_0000_0000_0000),
    ("the exponent's first bit stays", 0xC000_0000_0000_0000),
    ("the last bit stays", 0x8000_0000_0000_0001),
    ("a number of no sign gets none", 0x4008_0000_0000_0000),
];

// ---- wrong readings

fn of_nan(bits: u64, wrong: u64) -> u64 {
    if f64::from_bits(bits).is_nan() {
        wrong
    } else {
        bits & !SIGN
    }
}

const WRONG: [(&str, fn(u64) -> u64); 9] = [
    ("a not-a-number kept as it is", |bits| of_nan(bits, bits)),
    ("a not-a-number made quiet", |bits| of_nan(bits, bits & !SIGN | 1 << 51)),
    ("every not-a-number made one", |bits| of_nan(bits, 0x7FF8_0000_0000_0000)),
    ("a not-a-number's sign turned about", |bits| of_nan(bits, bits ^ SIGN)),
    ("a zero kept as it is", |bits| if bits << 1 == 0 { bits } else { bits & !SIGN }),
    ("the exponent's first bit for the sign's", |bits| bits & !(1 << 62)),
    ("the exponent's first bit too", |bits| bits & !(3 << 62)),
    ("the last bit too", |bits| bits & !(SIGN | 1)),
    ("the sign turned about", |bits| bits ^ SIGN),
];

/// By wrong reading, of how many of the telling bits it has another magnitude.
pub fn told() -> Vec<(&'static str, usize)> {
    let told = |of: fn(u64) -> u64| TELLING.iter().filter(|(_, bits)| of(*bits) != magnitude(*bits)).count();
    WRONG.map(|(name, of)| (name, told(of))).to_vec()
}
