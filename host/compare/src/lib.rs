//! Comparisons of the proved routines with what they are to equal.

// `!(a > b)` is meant: a NaN is not above anything
#![allow(clippy::neg_cmp_op_on_partial_ord)]

pub mod answers;
pub mod audit;
pub mod counts;
pub mod desk;
pub mod exact;
pub mod faults;
pub mod generate;
pub mod joint;
pub mod log;
pub mod numbers;
pub mod pattern;
pub mod progress;
pub mod routine;
pub mod runs;
pub mod printing;
pub mod portion;
pub mod slow;
pub mod steps;
pub mod table;
pub mod threads;
pub mod words;

use joint::bytes::canonical;

/// Equal bits, all NaNs counted alike.
pub fn same(a: f32, b: f32) -> bool {
    canonical(a) == canonical(b)
}
