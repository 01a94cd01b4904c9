//! Shim: module list.

pub mod cmpnt;
pub mod cmpnt_list;
pub mod lincomb;
pub mod term_set;
pub mod terms;
