//! Every routine of the ported crates, ours beside theirs: one file a crate, in the Rust's order.

mod adrc;
mod geo;
mod pos;
mod traj;
pub mod wrong;

use crate::routine::Routine;

pub fn all() -> Vec<Routine> {
    documents().into_iter().flatten().collect()
}

/// Those of 000, 001, 002 and 003.
pub fn documents() -> [Vec<Routine>; 4] {
    [geo::routines(), traj::routines(), adrc::routines(), pos::routines()]
}
