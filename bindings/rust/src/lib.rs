#![doc = include_str!("../README.md")]
#![deny(missing_docs, unsafe_code)]
#![allow(clippy::needless_doctest_main)] // README.md shows a whole build.rs

mod calls;
mod face;
mod record;
mod refusal;
mod report;
mod shelf;
mod term;

pub use calls::*;
pub use record::{Record, Terms, MAX_BYTES, MAX_MODES, MAX_TERMS, MAX_WEIGHT, ROW};
pub use refusal::{Reason, Refusal, UnknownReason};
pub use report::{Counted, Report, Share, MAX_REPORTED, REPORT};
pub use shelf::{Shelf, HALF, SHELF, SLOTS};
pub use term::{modes, word, Rows, Term};
