//! The log by document 02's tests, one after another: right with no fault, and wrong in one place with any other. The comparison has to catch
//! every fault; one that cannot fail shows nothing.

use super::{Face, RECORD, TRAILER};
use crate::joint::bytes::{canonical, float, put, word, ANSWER, TICK};

macro_rules! faults {
    ($($fault:ident = $name:literal;)*) => {
        #[derive(Clone, Copy, PartialEq, Eq, Debug)]
        enum Fault {
            None,
            $($fault,)*
        }

        /// One face for each fault.
        pub const WRONG: &[Face] = &[$(Face {
            name: $name,
            append: |buffer, log_len, input, answer| append(Fault::$fault, buffer, log_len, input, answer),
            count: |log, to| count(Fault::$fault, log, to),
            record: |log, place, to| record(Fault::$fault, log, place, to),
        }),*];
    };
}

faults! {
    AnswerFirst = "3 before 2";
    LogFirst = "8 before 3";
    RoomFirst = "9 before 8";
    LastAny = "any last word taken";
    CountAny = "any count taken, and 108 times it modulo 2^32";
    CountMore = "65,536 records taken";
    CountHalf = "the count's lower half alone looked at";
    BackAny = "any distance back taken";
    LongAny = "a longer log taken";
    LengthCut = "the length cut to 32 bits";
    OneMore = "a record more appended to 65,535";
    OneFewer = "none appended to 65,534";
    RoomMore = "109 bytes beyond the log wanted";
    RoomLess = "107 bytes beyond the log thought enough";
    Early = "the record written before 9";
    Beyond = "a byte beyond the trailer touched";
    CountKept = "the count not raised";
    BackKept = "the distance back not raised";
    BackFromEnd = "the distance from the end of the trailer";
    TrailerKept = "the record behind the old trailer";
    AnswerBefore = "the answer before the input";
    NanCanonical = "a NaN made canonical";
    CountLate = "2 after 8 at the count";
    CountZero = "the count written though it is refused";
    SkipsLast = "a reader that skips the last record";
    LastAgain = "a reader that gives the last record for ever";
    FromOne = "places counted from 1";
    Newest = "the newest record first";
    PlaceCut = "the place cut to 32 bits";
    RecordLate = "14 after 8";
    NoneFirst = "13 before 8";
    RecordZero = "a record of zeros where there is none";
}

/// With no fault.
pub const RIGHT: Face = Face {
    name: "test by test",
    append: |buffer, log_len, input, answer| append(Fault::None, buffer, log_len, input, answer),
    count: |log, to| count(Fault::None, log, to),
    record: |log, place, to| record(Fault::None, log, place, to),
};

/// The records of the log in these first bytes; None where it is none.
fn check(fault: Fault, buffer: &[u8], log_len: u64) -> Option<u32> {
    let log_len = if fault == Fault::LengthCut { u64::from(log_len as u32) } else { log_len };
    if log_len > buffer.len() as u64 || log_len < TRAILER as u64 {
        return None;
    }
    let trailer = &buffer[log_len as usize - TRAILER..log_len as usize];
    let (count, back, last) = (word(trailer, 0), word(trailer, 1), word(trailer, 2));
    let count = if fault == Fault::CountHalf { count & 0xffff } else { count };
    let most = match fault {
        Fault::CountAny => u32::MAX,
        Fault::CountMore => 65_536,
        _ => 65_535,
    };
    let right = (last == RECORD as u32 || fault == Fault::LastAny)
        && count <= most
        && (back == count.wrapping_mul(RECORD as u32) || fault == Fault::BackAny)
        && (log_len == u64::from(back) + TRAILER as u64 || (fault == Fault::LongAny && log_len > u64::from(back)));
    right.then_some(count)
}

/// As many of the bytes as there is room for.
fn copy(to: &mut [u8], at: usize, from: &[u8]) {
    to.iter_mut().skip(at).zip(from).for_each(|(own, byte)| *own = *byte);
}

fn append(fault: Fault, buffer: &mut [u8], log_len: u64, input: &[u8], answer: &[u8]) -> u32 {
    if fault == Fault::AnswerFirst && answer.len() != ANSWER {
        return 3;
    }
    if input.len() != TICK {
        return 2;
    }
    if fault == Fault::LogFirst && check(fault, buffer, log_len).is_none() {
        return 8;
    }
    if answer.len() != ANSWER {
        return 3;
    }
    let beyond = (buffer.len() as u64).saturating_sub(log_len);
    if fault == Fault::RoomFirst && beyond < RECORD as u64 {
        return 9;
    }
    let Some(count) = check(fault, buffer, log_len) else {
        return 8;
    };
    let at = if fault == Fault::LengthCut { log_len as u32 as usize } else { log_len as usize } - TRAILER;
    let (first, second) = if fault == Fault::AnswerBefore { (answer, input) } else { (input, answer) };
    if fault == Fault::Early {
        copy(buffer, at, first);
    }
    let most = match fault {
        Fault::OneMore => 65_536,
        Fault::OneFewer => 65_534,
        _ => 65_535,
    };
    let room = match fault {
        Fault::RoomMore => 109,
        Fault::RoomLess => 107,
        _ => 108,
    };
    if beyond < room || count >= most {
        return 9;
    }
    let at = if fault == Fault::TrailerKept { at + TRAILER } else { at };
    copy(buffer, at, first);
    copy(buffer, at + first.len(), second);
    if fault == Fault::NanCanonical {
        (0..RECORD / 4).for_each(|k| {
            let here = &mut buffer[at..];
            let (bits, clean) = (word(here, k), canonical(float(here, k)));
            put(here, k, if k == TICK / 4 + 6 { bits } else { clean });
        });
    }
    let raised = if fault == Fault::CountKept { count } else { count.wrapping_add(1) };
    let back = match fault {
        Fault::BackKept => count.wrapping_mul(RECORD as u32),
        Fault::BackFromEnd => (count + 1) * RECORD as u32 + TRAILER as u32,
        _ => count.wrapping_add(1).wrapping_mul(RECORD as u32),
    };
    let trailer = [raised, back, RECORD as u32].map(u32::to_le_bytes).concat();
    copy(buffer, at + RECORD, &trailer);
    if fault == Fault::Beyond {
        copy(buffer, at + RECORD + TRAILER, &[0]);
    }
    0
}

fn count(fault: Fault, log: &[u8], to: &mut [u8]) -> u32 {
    let found = check(fault, log, log.len() as u64);
    if fault == Fault::CountLate && found.is_none() {
        return 8;
    }
    if to.len() != 4 {
        return 2;
    }
    if fault == Fault::CountZero {
        to.fill(0);
    }
    match found {
        Some(count) => put(to, 0, count),
        None => return 8,
    }
    0
}

fn record(fault: Fault, log: &[u8], place: u64, to: &mut [u8]) -> u32 {
    let found = check(fault, log, log.len() as u64);
    if fault == Fault::RecordLate && found.is_none() {
        return 8;
    }
    if to.len() != RECORD {
        return 14;
    }
    let said = log.len().checked_sub(TRAILER).map_or(0, |at| word(&log[at..], 0));
    if fault == Fault::NoneFirst && place >= u64::from(said) {
        return 13;
    }
    let Some(count) = found.map(u64::from) else {
        return 8;
    };
    let place = match fault {
        Fault::PlaceCut => u64::from(place as u32),
        Fault::FromOne => place.wrapping_sub(1),
        Fault::LastAgain if count > 0 => place.min(count - 1),
        Fault::Newest if place < count => count - 1 - place,
        _ => place,
    };
    if place >= if fault == Fault::SkipsLast { count.saturating_sub(1) } else { count } {
        if fault == Fault::RecordZero {
            to.fill(0);
        }
        return 13;
    }
    // a wrong count may lead past the end
    let own = (place as usize).checked_mul(RECORD).and_then(|at| log.get(at..at + RECORD));
    copy(to, 0, own.unwrap_or_default());
    0
}
