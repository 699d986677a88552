//! The check of a log (request Ten): the archive's call beside document 02's sentence.
//!
//! `model` is what is expected, by relay's own shield; `judge` a check that goes record by record and can be made wrong; `sweep` the comparison: logs of
//! our own runs, each word of a record damaged in turn, logs of other boxes, every length.

pub mod judge;
pub mod model;
pub mod sweep;

use crate::joint::bytes::word;
use crate::joint::demand;

/// The call, of the archive or of what stands in its place: the log, what it is checked with, and where the verdict goes.
pub type Call<'a> = &'a dyn Fn(&[u8], Given, &mut [u8]) -> u32;

/// What a log does not tell.
#[derive(Clone, Copy, Debug)]
pub struct Given {
    pub profile: u32,
    pub enter: f32,
    pub exit: f32,
}

/// The proved archive.
pub fn archive(log: &[u8], Given { profile, enter, exit }: Given, verdict: &mut [u8]) -> u32 {
    archives::log_check(log, profile, enter, exit, verdict)
}

/// The verdict that all is right.
pub const RIGHT: u32 = 0xffff_ffff;

/// The words of a record that are judged, by their places: a tick's seventeen, then an answer's ten.
pub const AGILE: usize = 11;
pub const COMMAND: usize = 17 + 3;
pub const FLAG: usize = 17 + 6;
pub const MARGIN: usize = 17 + 9;

/// Three words from this place on.
pub fn three(record: &[u8], at: usize) -> [u32; 3] {
    [0, 1, 2].map(|k| word(record, at + k))
}

/// What a record that is flagged 0 has to carry.
pub fn passed_on(record: &[u8], profile: u32) -> [u32; 3] {
    demand::passed_on(profile, three(record, AGILE))
}
