//! Lists for calls at the edges: every one over a few values, one too long or too short.

pub const MAX: usize = usize::MAX;

/// Its square wraps to zero.
pub const WRAPS: usize = 1 << 32;

/// The lists of a length over some values, each once.
pub fn lists<T: Copy>(of: &[T], n: usize) -> Vec<Vec<T>> {
    let longer = |list: &Vec<T>| of.iter().map(|&x| [&list[..], &[x]].concat()).collect::<Vec<_>>();
    (0..n).fold(vec![Vec::new()], |all, _| all.iter().flat_map(longer).collect())
}

/// A list one longer, one shorter or as it is.
pub fn stretch<T: Clone + Default>(list: &mut Vec<T>, by: isize) {
    list.resize(list.len().saturating_add_signed(by), T::default());
}
