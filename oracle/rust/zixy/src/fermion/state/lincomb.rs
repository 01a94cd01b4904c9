//! Shim: the one function that `mat_elem.rs` takes from here.
pub use crate::utils::vector_ops::vdot;
