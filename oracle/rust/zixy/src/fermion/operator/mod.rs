//! Shim: module list.

pub mod general;
pub mod lincomb;
pub mod normal;
