//! Shim: module list.

pub mod mode;
pub mod operator;
pub mod state;
pub mod traits;
