//! Shim: the root of the module tree, holding only what the 37 files need.
#![allow(dead_code, unused_imports, clippy::all)]

pub mod cmpnt;
pub mod container;
pub mod fermion;
pub mod utils;
