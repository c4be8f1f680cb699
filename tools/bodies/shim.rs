//! What the bodies use of the kit's own words: memory, and the count of steps.

#[derive(Clone, Copy, Debug)]
pub struct Global;

#[derive(Clone, Copy, Debug)]
pub struct AllocError;

pub struct AllocFailed;

pub trait Ledger {}

pub struct Counted;

impl Ledger for Counted {}

/// What stands for `vec![in alloc; value; count]`.
#[macro_export]
macro_rules! filled {
    ($value:expr; $count:expr) => {
        Ok::<_, $crate::AllocError>(vec![$value; $count])
    };
}
