//! Readings of docs/SCOPE.md, "LAPACK's pivot lists", that look right and are wrong,
//! each in one thing; and how many cases tell each of them from the right one.

mod from;
mod to;

use crate::case::{Case, FromLapack, ToLapack};
use crate::pivots::{FROM, TO};

/// By wrong reading, how many of these cases it answers otherwise.
pub fn told(cases: &[Case]) -> Vec<(String, usize)> {
    let to = to::wrong().into_iter().map(|(name, reading)| {
        let otherwise = |c: &ToLapack| reading.answer(c) != TO.answer(c);
        let tells = |case: &&Case| matches!(case, Case::ToLapack(c) if otherwise(c));
        (format!("to LAPACK: {name}"), cases.iter().filter(tells).count())
    });
    let from = from::wrong().into_iter().map(|(name, reading)| {
        let otherwise = |c: &FromLapack| reading.answer(c) != FROM.answer(c);
        let tells = |case: &&Case| matches!(case, Case::FromLapack(c) if otherwise(c));
        (format!("from LAPACK: {name}"), cases.iter().filter(tells).count())
    });
    to.chain(from).collect()
}
