//! Compressed columns; the general form and its layout are left out.

pub mod csc;

pub mod general {
    pub struct GeneralCsc<T> {
        pub n: usize,
        pub col_ptr: Vec<usize>,
        pub row_idx: Vec<usize>,
        pub values: Vec<T>,
    }
}

pub mod layout {
    pub struct CscLayout;
    impl CscLayout {
        pub fn new(_: usize, _: &[usize], _: &[usize]) -> Result<Self, crate::error::RslabError> {
            crate::left_out()
        }
        pub fn assemble<T>(&self, _: &[T]) -> super::general::GeneralCsc<T> {
            crate::left_out()
        }
    }
}
