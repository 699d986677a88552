//! What is expected, sentence by sentence: all flags first, by relay's own shield, then each record by itself. No flag of the log is carried along.

use super::{passed_on, three, Given, COMMAND, FLAG, MARGIN, RIGHT};
use crate::joint::bytes::{float, put, word};
use crate::log::model::records;
use crate::slow::stepped;

/// "Refusals: 8 as in Two, then 10 for a profile not 0 or 1"; before them 2, for what takes the verdict.
pub fn check(log: &[u8], given: Given, verdict: &mut [u8]) -> u32 {
    if verdict.len() != 4 {
        return 2;
    }
    let Some(records) = records(log) else {
        return 8;
    };
    if given.profile > 1 {
        return 10;
    }
    put(verdict, 0, first_wrong(&records, given).map_or(RIGHT, |place| place as u32));
    0
}

/// "Answer yes exactly if all hold, else the first wrong record, counted from 0."
pub fn first_wrong(records: &[&[u8]], Given { profile, enter, exit }: Given) -> Option<usize> {
    // "those that its own margin words demand from a fresh shield"
    let margins: Vec<f32> = records.iter().map(|record| float(record, MARGIN)).collect();
    let demanded = stepped(&margins, enter, exit);
    records.iter().zip(demanded).position(|(record, demanded)| {
        let (flag, command) = (word(record, FLAG), three(record, COMMAND));
        let carries = match flag {
            // "each record flagged 0 carries its agile words with non-finite made zero (the third zero in the lost-rotor profile)"
            0 => command == passed_on(record, profile),
            // "each flagged 1 carries finite ones"
            1 => command.iter().all(|bits| f32::from_bits(*bits).is_finite()),
            // "Any flag other than 0 or 1 is wrong."
            _ => false,
        };
        flag != u32::from(demanded) || !carries
    })
}
