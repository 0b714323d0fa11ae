//! The supernode record; the search for supernodes is left out.

#[derive(Debug, Clone)]
pub struct Supernode {
    pub first_col: usize,
    pub ncol: usize,
    pub children: Vec<usize>,
}

#[derive(Debug, Clone, Copy, PartialEq)]
pub enum AmalgamationStrategy {
    Auto,
}

#[derive(Debug, Clone, Copy, PartialEq)]
pub struct RelaxAmalgamation;

pub fn find_supernodes() {
    crate::left_out()
}
pub fn pick_amalgamation_strategy() {
    crate::left_out()
}
pub fn supernode_parents(_: &[Supernode], _: &[bool]) -> Vec<usize> {
    crate::left_out()
}
