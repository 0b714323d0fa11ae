//! A solve call: what it must answer and leave, and where an answer differs from that.

use crate::call::{flip, refusals_beside, refused};
use oracle::case::*;
use oracle::random;
use oracle::solve;

/// What a call answered, and the vector as it left it.
#[derive(Clone, Debug)]
pub struct Left {
    pub outcome: Result<(), misuktaan::Refusal>,
    pub vector: Vec<f64>,
}

/// What the library's call answers and leaves.
pub fn left(s: &Solve) -> Left {
    let mut vector = s.vector.clone();
    let outcome = misuktaan::solve(s.ncol, s.nrow, &s.panel, &s.d, &s.sub, &s.blocks, &s.order, &mut vector);
    Left { outcome, vector }
}

/// What a call must answer and leave, by the text of docs/SCOPE.md.
pub fn must(s: &Solve) -> Left {
    match solve::AS_WRITTEN.answer(s) {
        Ok(vector) => Left { outcome: Ok(()), vector },
        Err(refusal) => Left { outcome: Err(refused(refusal)), vector: s.vector.clone() },
    }
}

/// The first cell of the vector in which two calls differ. What an accepted call leaves is worked out, and all
/// not-a-numbers count as one there; what a refused one leaves is held to its bits.
pub fn difference(got: &Left, must: &Left) -> Option<String> {
    if got.outcome != must.outcome {
        return Some(format!("{:?}, must be {:?}", got.outcome, must.outcome));
    }
    let accepted = must.outcome.is_ok();
    let alike = |x: f64, y: f64| x.to_bits() == y.to_bits() || (accepted && x.is_nan() && y.is_nan());
    let at = got.vector.iter().zip(&must.vector).position(|(&x, &y)| !alike(x, y))?;
    Some(format!("vector[{at}] is {:016X}, must be {:016X}", got.vector[at].to_bits(), must.vector[at].to_bits()))
}

/// Every cell that a call is lent to read, by its bits.
pub fn read(s: &Solve) -> Vec<u64> {
    let numbers = [&s.panel, &s.d, &s.sub].into_iter().flatten().map(|x| x.to_bits());
    let bytes = s.blocks.iter().map(|&b| b.into());
    numbers.chain(bytes).chain(s.order.iter().map(|&i| i as u64)).collect()
}

/// A wrong cell of the vector and a wrong number in the answer are noticed, after an acceptance and after a refusal.
pub fn notices() {
    let accepted = Solve {
        ncol: 2,
        nrow: 2,
        panel: vec![2.0, 0.5, 0.0, 3.0],
        d: vec![2.0, 3.0],
        sub: vec![0.0; 2],
        blocks: vec![0; 2],
        order: vec![1, 0],
        vector: vec![5.0, 7.0],
    };
    let refused = Solve { vector: vec![random::payload(2), 1.0], ..accepted.clone() };
    for s in [accepted, refused] {
        let right = must(&s);
        assert_eq!(difference(&right, &right), None);
        let noticed = |got: Left| assert!(difference(&got, &right).is_some(), "a wrong answer passes: {got:?}");
        for at in 0..right.vector.len() {
            let mut got = right.clone();
            flip(&mut got.vector[at]);
            noticed(got);
        }
        let beside = match right.outcome {
            Err(refusal) => refusals_beside(refusal).map(Err).into_iter().chain([Ok(())]).collect(),
            Ok(()) => vec![Err(misuktaan::Refusal { number: 27, a: 0, b: 0 })],
        };
        beside.into_iter().for_each(|outcome| noticed(Left { outcome, ..right.clone() }));
    }
}
