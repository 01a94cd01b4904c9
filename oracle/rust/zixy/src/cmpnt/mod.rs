//! Shim: module list.

pub mod springs;
pub mod state_springs;
