//! The flight log: the archive's three calls beside document 02's request Two.
//!
//! `model` is what is expected, a list of records; `parts` is a log written test by test, that can be made wrong; `sweep` the comparison, the
//! number and every lent byte after every call.

pub mod model;
pub mod parts;
pub mod sweep;

use crate::joint::bytes::{ANSWER, TICK};

/// A record: a tick's input, then its answer.
pub const RECORD: usize = TICK + ANSWER;
/// What stands behind the records.
pub const TRAILER: usize = 12;
/// The most records.
pub const MOST: usize = 65_535;

/// The calls, of the archive or of what stands in its place.
#[derive(Clone, Copy)]
pub struct Face {
    pub name: &'static str,
    /// The buffer, the log's length at its start, input, answer.
    pub append: fn(&mut [u8], u64, &[u8], &[u8]) -> u32,
    /// The log, and where its count goes.
    pub count: fn(&[u8], &mut [u8]) -> u32,
    /// The log, a place in it, and where the record goes.
    pub record: fn(&[u8], u64, &mut [u8]) -> u32,
}

/// The proved archive.
pub const ARCHIVE: Face = Face { name: "libfosavalo.a", append: archives::log_append, count: archives::log_count, record: archives::log_record };
