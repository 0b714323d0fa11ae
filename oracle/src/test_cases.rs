//! Hand-made factor calls for the test numbers of docs/SCOPE.md, "The pivot tests": the stations that state them, each
//! with its numbers worked out by hand, and cases that tell the text from a wrong reading of it (`test_readings.rs`).

use crate::case::*;
use crate::rules;
use crate::telling::{fail, lift, Named, LEAST};
use crate::test_numbers::alpha;

// ---- stations

/// An accepted call and the test numbers that it must leave.
pub struct Station {
    pub named: Named,
    pub tests: &'static [u8],
}

fn station(tests: &'static [u8], named: Named) -> Station {
    Station { named, tests }
}

/// Those of docs/SCOPE.md, "Stations".
pub fn stations() -> Vec<Station> {
    vec![
        station(&[0], lift("[0], Lift 0.5: d 0.5, amount 0.5, test number 0", 1, 1, 0.5, 1, &[&[0.0]])),
        station(&[1], lift("[-0.25], Lift 0.5: -0.5, amount -0.25, test number 1", 1, 1, 0.5, 1, &[&[-0.25]])),
        station(&[4, 4], fail("[0,1; 0]: one block, counts 1 1 0, test numbers 4 4", 2, 2, &[&[0.0, 1.0], &[0.0]])),
        station(&[3, 1], fail("[1,2; 8]: order 1 0, test numbers 3 1", 2, 2, &[&[1.0, 2.0], &[8.0]])),
        station(
            &[2, 4, 4],
            fail("[0.5,1,0; 0,8; 0]: test numbers 2 4 4", 3, 3, &[&[0.5, 1.0, 0.0], &[0.0, 8.0], &[0.0]]),
        ),
        station(&[1, 1], fail("[1e-200,1e-200; 1]: test numbers 1 1", 2, 2, &[&[1e-200, 1e-200], &[1.0]])),
        station(
            &[0, 1],
            lift("[0,1; 0], nb 1, Lift 0.5: d 0.5 -2, L 2, test numbers 0 1", 2, 1, 0.5, 1, &[&[0.0, 1.0], &[0.0]]),
        ),
        station(&[2, 4, 4], vanishing("[0,1e-160,0; 0,1e150; 0], Lift 0.5: d 0.5, amount 0.5, test number 2")),
    ]
}

/// The right side of the third test vanishes; its 1x1 of zero is lifted.
fn vanishing(name: &str) -> Named {
    lift(name, 3, 3, 0.5, 1, &[&[0.0, 1e-160, 0.0], &[0.0, 1e150], &[0.0]])
}

/// The stations have their test numbers.
pub fn as_stated() -> Result<(), String> {
    stations().iter().try_for_each(|of| match rules::answer(&of.named.1) {
        Answer::Accepted { factored, .. } if factored.tests == of.tests => Ok(()),
        other => Err(format!("{}: {other:?}, must have the test numbers {:?}", of.named.0, of.tests)),
    })
}

// ---- telling cases

/// For each wrong reading cases that it answers otherwise.
pub fn telling() -> Vec<Named> {
    [searches(), rows(), comparisons(), pivots(), hidden()].concat()
}

/// The calls alone.
pub fn calls() -> Vec<Factor> {
    let call = |(name, case)| match case {
        Case::Factor(f) => f,
        _ => unreachable!("{name} is no factor call"),
    };
    telling().into_iter().map(call).collect()
}

/// What the column's search looks at.
fn searches() -> Vec<Named> {
    vec![
        fail("1 over a square that vanishes, whatever is there", 2, 2, &[&[1e-200, 1e-170], &[1.0]]),
        lift("0 over a square that vanishes, lifted", 2, 2, 0.5, 1, &[&[0.0, 1e-170], &[1.0]]),
        fail("1 of either sign", 2, 2, &[&[-4.0, 1.0], &[1.0]]),
        lift("3 and not 1 for a diagonal that a lift would make large", 2, 2, 2.0, 1, &[&[0.25, 1.0], &[8.0]]),
        lift("0: the search stays in the panel", 2, 1, 0.5, 1, &[&[0.0, 1.0], &[0.0]]),
        fail("1 over a large tail", 2, 1, &[&[0.5, 1.0]]),
        fail("the first of two equal squares: 4 and not 3", 3, 3, &[&[0.0, 1.0, -1.0], &[0.0, 0.0], &[3.0]]),
        fail("by the numbers that stand there: 1 and not 0", 2, 2, &[&[1.0, 1.0], &[0.0]]),
    ]
}

/// What the search in row imax looks at, and the candidate.
fn rows() -> Vec<Named> {
    vec![
        lift("4: a square in row imax that lost digits", 2, 2, 0.5, 1, &[&[0.0, 2e-162], &[1.35e-162]]),
        fail("3 and not 2: row imax without its diagonal", 2, 2, &[&[1.0, 2.0], &[8.0]]),
        fail("4 and not 3: row imax with column k", 2, 2, &[&[0.0, 1.0], &[0.0]]),
        fail("2: row imax goes on as column imax", 3, 3, &[&[0.5, 1.0, 0.0], &[0.0, 8.0], &[0.0]]),
        fail("3: no L of the panel's first column", 3, 3, &[&[1.0, 0.0, 1.0], &[0.0, 0.5], &[1.4]]),
        fail("3: no L of an earlier panel", 4, 2, &[&[1.0, 0.0, 0.0, 1.0], &[1.0, 0.0, 0.0], &[0.0, 0.5], &[1.4]]),
        fail("3: the panel's rows alone", 3, 2, &[&[0.0, 0.5, 0.0], &[1.0, 4.0], &[1.0]]),
        fail("3 over a large tail", 3, 2, &[&[0.0, 1.0, 0.0], &[1.0, 1e8]]),
        fail("3 of either sign", 2, 2, &[&[0.0, 1.0], &[-2.0]]),
        fail("4: row imax and not the next row", 3, 3, &[&[0.0, 0.0, 1.0], &[8.0, 0.0], &[0.0]]),
    ]
}

/// What the tests compare. `at` is the right side of the row test, for a row imax that holds a `most`.
fn comparisons() -> Vec<Named> {
    let right_side = |name: &str, colmax: f64, most: f64| {
        let at = (alpha() * colmax) * (colmax / most);
        fail(name, 3, 3, &[&[at, colmax, 0.0], &[0.0, most], &[0.0]])
    };
    vec![
        fail("1 over nothing", 1, 1, &[&[3.0]]),
        lift("0 and not 1 for zeros", 2, 2, 0.5, 1, &[&[0.0, -0.0], &[-0.0]]),
        fail("1 at alpha·colmax", 2, 2, &[&[alpha(), 1.0], &[3.0]]),
        fail("3 right below alpha·colmax", 2, 2, &[&[0.64, 1.0], &[3.0]]),
        right_side("2 at the row test's right side", 1.0, 2.0),
        right_side("2 at the row test's right side, its quotient first", 3.0, 6.0),
        right_side("2 at the row test's right side, with a quotient", 3.0, 7.0),
        fail("2 before 3", 3, 3, &[&[0.5, 1.0, 0.0], &[8.0, 2.0], &[0.0]]),
        fail("3 at alpha·rowmax", 2, 2, &[&[0.0, 1.0], &[alpha()]]),
        fail("4: the candidate beside rowmax and not colmax", 3, 3, &[&[0.0, 1.0, 0.0], &[1.0, 4.0], &[8.0]]),
    ]
}

/// What becomes of the number with the pivot.
fn pivots() -> Vec<Named> {
    vec![
        lift("1 for a lifted number", 1, 1, 0.5, 1, &[&[-0.25]]),
        vanishing("2 for a lifted zero that the row test takes"),
        lift("3 for a lifted candidate", 2, 2, 4.0, 1, &[&[0.0, 1.0], &[2.0]]),
        lift("4 4 for a lifted block", 2, 2, 2.0, 2, &[&[0.0, 1.0], &[0.0]]),
        fail("4 4 with an exchange", 3, 3, &[&[0.0, 0.0, 3.0], &[1.0, 2.0], &[1.0]]),
        fail("a position after a block's two", 3, 3, &[&[0.0, 1.0, 0.0], &[0.0, 0.0], &[1.0]]),
        fail("4 4 in a later panel", 4, 2, &[&[1.0, 0.0, 0.0, 0.0], &[2.0, 0.0, 0.0], &[0.0, 1.0], &[0.0]]),
        fail("3 1 in a later panel", 4, 2, &[&[0.0, 1.0, 0.0, 0.0], &[0.0, 0.0, 0.0], &[1.0, 2.0], &[8.0]]),
    ]
}

/// What no call shows, since it ends in refusal 9: at the second position stands a not-a-number then.
fn hidden() -> Vec<Named> {
    vec![lift("a zero column of a not-a-number: 9 at 0", 2, 2, LEAST, 1, &[&[LEAST, 0.0], &[1.0]])]
}
