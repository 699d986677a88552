//! The conformance kit (docs/CONFORMANCE.md): `questions` has its vectors, `program` who answers them, `wrong` every wrong version of the host's comparison and
//! `coverage` what the vectors catch of these; `kit` writes the folder. `conform` runs it, and judges here as it does there.

pub mod conform;
pub mod coverage;
pub mod kit;
pub mod program;
pub mod questions;
pub mod wrong;
