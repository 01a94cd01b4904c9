//! Shim: module list.

pub mod complex_sign;
pub mod numeric;
pub mod sign;
pub mod traits;
pub mod unity;
