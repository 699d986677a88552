//! What is expected: a log is a list of records, and its bytes are that list written out. Nothing here looks at a trailer's words; bytes are a
//! log if writing out the records that they would have gives these bytes again.

use super::{MOST, RECORD, TRAILER};
use crate::joint::bytes::{ANSWER, TICK};

/// "Records of 108 bytes (tick input, then answer) and a trailer of three words: count, bytes back to the first record, and 108."
pub fn written(records: &[&[u8]]) -> Vec<u8> {
    let mut bytes = Vec::with_capacity(RECORD * records.len() + TRAILER);
    records.iter().for_each(|record| bytes.extend_from_slice(record));
    let back = bytes.len();
    [records.len(), back, RECORD].iter().for_each(|word| bytes.extend_from_slice(&(*word as u32).to_le_bytes()));
    bytes
}

/// The records of these bytes; None where they are no log. As many records as fit before a trailer is the only count that they can have.
pub fn records(bytes: &[u8]) -> Option<Vec<&[u8]>> {
    let records: Vec<&[u8]> = bytes[..bytes.len().checked_sub(TRAILER)?].chunks_exact(RECORD).collect();
    (records.len() <= MOST && written(&records) == bytes).then_some(records)
}

/// The new log is that of one record more, and the rest of the buffer stays.
pub fn append(buffer: &mut [u8], log_len: u64, input: &[u8], answer: &[u8]) -> u32 {
    if input.len() != TICK {
        return 2;
    }
    if answer.len() != ANSWER {
        return 3;
    }
    let log = usize::try_from(log_len).ok().and_then(|len| buffer.get(..len));
    let Some(mut records) = log.and_then(records) else {
        return 8;
    };
    let record = [input, answer].concat();
    records.push(&record);
    if records.len() > MOST {
        return 9;
    }
    let new = written(&records);
    match buffer.get_mut(..new.len()) {
        Some(start) => start.copy_from_slice(&new),
        None => return 9,
    }
    0
}

pub fn count(log: &[u8], count: &mut [u8]) -> u32 {
    match (count.len(), records(log)) {
        (4, Some(records)) => {
            count.copy_from_slice(&(records.len() as u32).to_le_bytes());
            0
        }
        (4, None) => 8,
        _ => 2,
    }
}

pub fn record(log: &[u8], place: u64, record: &mut [u8]) -> u32 {
    if record.len() != RECORD {
        return 14;
    }
    let Some(records) = records(log) else {
        return 8;
    };
    match usize::try_from(place).ok().and_then(|place| records.get(place)) {
        Some(own) => record.copy_from_slice(own),
        None => return 13,
    }
    0
}

#[cfg(test)]
mod tests {
    use super::*;

    /// "An empty log is the trailer 0, 0, 108."
    #[test]
    fn an_empty_log() {
        let words = |words: [u32; 3]| words.into_iter().flat_map(u32::to_le_bytes).collect::<Vec<u8>>();
        assert_eq!(written(&[]), words([0, 0, 108]));
        assert_eq!(records(&words([0, 0, 108])), Some(vec![]));
        for not in [[1, 0, 108], [0, 1, 108], [0, 12, 108], [0, 0, 0], [0, 0, 109], [1 << 30, 0, 108]] {
            assert_eq!(records(&words(not)), None, "{not:?}");
        }
    }

    #[test]
    fn what_is_written_is_read() {
        let all = [[1u8; RECORD], [2; RECORD], [3; RECORD]];
        let list: Vec<&[u8]> = all.iter().map(|record| &record[..]).collect();
        let bytes = written(&list);
        assert_eq!((bytes.len(), &bytes[324..]), (336, &[3, 0, 0, 0, 0x44, 1, 0, 0, 108, 0, 0, 0][..]));
        assert_eq!(records(&bytes), Some(list));
        assert_eq!((records(&bytes[1..]), records(&bytes[108..]), records(&bytes[..335]), records(&[])), (None, None, None, None));
    }
}
