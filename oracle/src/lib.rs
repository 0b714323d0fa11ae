//! The oracle: cases, the rules of docs/SCOPE.md around the reference, seeded random
//! cases and the telling ones. The reference itself is `rslab::reach`.

pub mod case;
pub mod elimination;
pub mod lines;
pub mod magnitude;
pub mod pivot_cases;
pub mod pivot_readings;
pub mod pivots;
pub mod random;
pub mod readings;
pub mod rules;
pub mod solve;
pub mod systems;
pub mod telling;
pub mod test_cases;
pub mod test_numbers;
pub mod test_readings;
