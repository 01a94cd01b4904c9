//! Shim: module list.

pub mod lincomb;
pub mod mat_elem;
pub mod num_ops;
pub mod term_set;
pub mod terms;
