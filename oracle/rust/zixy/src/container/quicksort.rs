//! Shim: `container/mod.rs` names this module; none of the 37 files uses it.
