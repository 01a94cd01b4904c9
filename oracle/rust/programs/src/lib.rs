//! What the timing programs share.
pub mod draw;
pub mod operators;
pub mod timing;
