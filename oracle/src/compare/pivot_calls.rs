//! A call to LAPACK or from it: what it must answer and leave, and where an answer differs from that.

use crate::call::{refusals_beside, refused};
use oracle::case::*;
use oracle::{pivot_cases, rules};

/// What a call answered, and every buffer as it left it, those too that it only reads.
#[derive(Clone, Debug, PartialEq)]
pub struct Left {
    pub outcome: Result<(), misuktaan::Refusal>,
    pub list: Vec<i32>,
    pub order: Vec<usize>,
    pub blocks: Vec<u8>,
}

/// The buffers as they are lent.
fn lent(case: &Case) -> Left {
    let (list, order, blocks) = match case {
        Case::ToLapack(ToLapack { list, order, blocks, .. }) => (list, order, blocks),
        Case::FromLapack(FromLapack { list, order, blocks, .. }) => (list, order, blocks),
        _ => unreachable!("no call of a pivot list"),
    };
    Left { outcome: Ok(()), list: list.clone(), order: order.clone(), blocks: blocks.clone() }
}

/// What the library's call answers and leaves.
pub fn left(case: &Case) -> Left {
    let mut left = lent(case);
    left.outcome = match case {
        Case::ToLapack(c) => misuktaan::to_lapack(c.ncol, &left.order, &left.blocks, &mut left.list),
        Case::FromLapack(c) => misuktaan::from_lapack(c.ncol, &left.list, &mut left.order, &mut left.blocks),
        _ => unreachable!("no call of a pivot list"),
    };
    left
}

/// What a call must answer and leave, by the text of docs/SCOPE.md.
pub fn must(case: &Case) -> Left {
    match rules::answer(case) {
        Answer::Refused(refusal) => Left { outcome: Err(refused(refusal)), ..lent(case) },
        Answer::List(list) => Left { list, ..lent(case) },
        Answer::Pivots { order, blocks } => Left { order, blocks, ..lent(case) },
        other => panic!("no answer of a call of a pivot list: {other:?}"),
    }
}

/// The first cell in which two lists differ.
fn cell<T: PartialEq + std::fmt::Debug>(name: &str, got: &[T], must: &[T]) -> Option<String> {
    let at = got.iter().zip(must).position(|(x, y)| x != y)?;
    Some(format!("{name}[{at}] is {:?}, must be {:?}", got[at], must[at]))
}

/// Where two calls differ: in the answer, else in the first such cell of a buffer.
pub fn difference(got: &Left, must: &Left) -> Option<String> {
    if got.outcome != must.outcome {
        return Some(format!("{:?}, must be {:?}", got.outcome, must.outcome));
    }
    let list = cell("list", &got.list, &must.list);
    let order = || cell("order", &got.order, &must.order);
    list.or_else(order).or_else(|| cell("blocks", &got.blocks, &must.blocks))
}

/// A wrong cell of any buffer and a wrong number in the answer are noticed, after an acceptance and after a refusal.
pub fn notices() {
    let wrong: [fn(&mut Left, usize); 3] =
        [|left, at| left.list[at] ^= 1, |left, at| left.order[at] ^= 1, |left, at| left.blocks[at] ^= 1];
    let to = [pivot_cases::to(&[2, 1, 0], &[0, 1, 0]), pivot_cases::to(&[1, 2, 0], &[1, 0, 0])].map(Case::ToLapack);
    let from = [pivot_cases::from(&[3, -3, -3]), pivot_cases::from(&[3, 1, 3])].map(Case::FromLapack);
    for case in to.into_iter().chain(from) {
        let right = must(&case);
        assert_eq!(difference(&right, &right), None);
        let noticed = |got: Left| assert!(difference(&got, &right).is_some(), "a wrong answer passes: {got:?}");
        for at in 0..3 {
            for spoil in wrong {
                let mut got = right.clone();
                spoil(&mut got, at);
                noticed(got);
            }
        }
        let beside = match right.outcome {
            Err(refusal) => refusals_beside(refusal).map(Err).into_iter().chain([Ok(())]).collect(),
            Ok(()) => vec![Err(misuktaan::Refusal { number: 28, a: 0, b: 0 })],
        };
        beside.into_iter().for_each(|outcome| noticed(Left { outcome, ..right.clone() }));
    }
}
