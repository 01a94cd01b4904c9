//! Shim: module list.

pub mod cmpnt_list;
pub mod term_set;
