//! What can be had of a file that was to be a log: cut short, with room behind it, or torn while it was appended to.

use fosavalo::{LogView, LOG_TRAILER_BYTES, MOST_RECORDS, RECORD_BYTES};
use std::fmt;

/// Why the records end where they do.
#[derive(Clone, Copy, Debug, PartialEq, Eq)]
pub enum End {
    /// It is a log.
    Whole,
    /// There is a log's end, and so many bytes behind it.
    Found(usize),
    /// There is none, and so many bytes behind the last whole record, of which so many are zeros at the end.
    None(usize, usize),
}

#[derive(Clone, Copy, Debug, PartialEq, Eq)]
pub struct Salvaged<'a> {
    pub records: &'a [u8],
    pub end: End,
}

/// The trailer of a log of so many records.
pub fn trailer(count: usize) -> [u8; LOG_TRAILER_BYTES] {
    let mut bytes = [0; LOG_TRAILER_BYTES];
    let words = [count, count * RECORD_BYTES, RECORD_BYTES];
    bytes.chunks_exact_mut(4).zip(words).for_each(|(four, word)| four.copy_from_slice(&(word as u32).to_le_bytes()));
    bytes
}

/// The records of these bytes. A log's end that stands where it says that it does ends them; else zeros at the end are no data, and whole records are kept.
pub fn salvage(bytes: &[u8]) -> Salvaged<'_> {
    let up_to = |count: usize| bytes.get(..count * RECORD_BYTES).unwrap_or_default();
    if let Ok(log) = LogView::from_bytes(bytes) {
        return Salvaged { records: up_to(log.len()), end: End::Whole };
    }
    let most = (bytes.len() / RECORD_BYTES).min(MOST_RECORDS);
    if let Some(count) = (0..=most).find(|count| bytes.get(count * RECORD_BYTES..).is_some_and(|rest| rest.starts_with(&trailer(*count)))) {
        return Salvaged { records: up_to(count), end: End::Found(bytes.len() - count * RECORD_BYTES - LOG_TRAILER_BYTES) };
    }
    let data = |bytes: &[u8]| bytes.iter().rposition(|byte| *byte != 0).map_or(0, |last| last + 1);
    let (mut count, zeros) = (data(bytes) / RECORD_BYTES, bytes.len() - data(bytes));
    // what stood before a torn record and is zero is no record either
    count = data(up_to(count)).div_ceil(RECORD_BYTES);
    let records = up_to(count);
    Salvaged { records, end: End::None(bytes.len() - records.len(), zeros) }
}

impl fmt::Display for Salvaged<'_> {
    fn fmt(&self, f: &mut fmt::Formatter<'_>) -> fmt::Result {
        let many = |n: usize, what: &str| format!("{n} {what}{}", if n == 1 { "" } else { "s" });
        let records = many(self.records.len() / RECORD_BYTES, "record");
        match self.end {
            End::Whole => write!(f, "{records}, a whole log; nothing was dropped"),
            End::Found(behind) => write!(f, "{records} up to the log's end; {} behind it dropped", many(behind, "byte")),
            End::None(dropped, zeros) => {
                write!(
                    f,
                    "{records}; no log's end was found, and {} behind them dropped, {zeros} of them zeros at the end",
                    many(dropped, "byte")
                )
            }
        }
    }
}
