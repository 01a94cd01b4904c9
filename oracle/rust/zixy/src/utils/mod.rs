//! Shim: module list.

pub mod arith;
pub mod vector_ops;
