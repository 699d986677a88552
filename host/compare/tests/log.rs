//! The flight log: the archive's three calls against a list of records, byte for byte.

use compare::log::{parts, sweep, Face, ARCHIVE, RECORD, TRAILER};
use compare::portion;
use std::time::Instant;

#[test]
fn every_call_is_the_list_s() {
    let start = Instant::now();
    let seen = sweep::all(&ARCHIVE).unwrap_or_else(|text| panic!("{text}"));
    println!("{seen}\n{:.1} s", start.elapsed().as_secs_f32());
    // a sweep that never goes where the errors are shows nothing
    let often = |calls: &[u64], numbers: &[usize]| numbers.iter().all(|number| calls[*number] > portion::least(100));
    assert!(often(&seen.append, &[0, 2, 3, 8, 9]) && often(&seen.count, &[0, 2, 8]) && often(&seen.record, &[0, 8, 13, 14]), "{seen}");
}

#[test]
fn what_looks_right_but_is_wrong_is_caught() {
    let caught = |face: &&Face| match sweep::all(face) {
        Err(text) => {
            println!("{}: {text}", face.name);
            true
        }
        Ok(_) => false,
    };
    let missed: Vec<&str> = parts::WRONG.iter().filter(|face| !caught(face)).map(|face| face.name).collect();
    assert!(missed.is_empty(), "not caught: {missed:?}");
}

/// What the wrong ones are made from is right.
#[test]
fn the_tests_one_after_another_say_the_same() {
    let seen = sweep::all(&parts::RIGHT).unwrap_or_else(|text| panic!("{text}"));
    println!("{seen}");
}

// Some lines of document 02 by hand, through the archive; the model has no part in them.

fn words(words: [u32; 3]) -> Vec<u8> {
    words.into_iter().flat_map(u32::to_le_bytes).collect()
}

/// "It overwrites the old trailer with the record, writes a new one after it and changes no other byte."
#[test]
fn two_appends_by_hand() {
    let mut buffer = [words([0, 0, 108]), vec![0xcc; 250]].concat();
    let (input, answer) = ([0x7f; 68], [0xff; 40]);
    assert_eq!((ARCHIVE.append)(&mut buffer, 12, &input, &answer), 0);
    let once = [&[0x7f; 68][..], &[0xff; 40], &words([1, 108, 108]), &[0xcc; 142]].concat();
    assert_eq!(buffer, once);
    assert_eq!((ARCHIVE.append)(&mut buffer, 120, &[1; 68], &[2; 40]), 0);
    let twice = [&once[..108], &[1; 68], &[2; 40], &words([2, 216, 108]), &[0xcc; 34]].concat();
    assert_eq!(buffer, twice);
    assert_eq!((ARCHIVE.append)(&mut buffer, 228, &[1; 68], &[2; 40]), 9);
    // the log at its start is an older one no more: its trailer is gone
    assert_eq!((ARCHIVE.append)(&mut buffer, 120, &[1; 68], &[2; 40]), 8);
    assert_eq!(buffer, twice);
    let (mut count, mut record) = ([0xee; 4], [0xee; 108]);
    assert_eq!(((ARCHIVE.count)(&buffer[..228], &mut count), count), (0, [2, 0, 0, 0]));
    assert_eq!(((ARCHIVE.record)(&buffer[..228], 0, &mut record), &record[..]), (0, &once[..108]));
    assert_eq!(((ARCHIVE.record)(&buffer[..228], 1, &mut record), &record[..]), (0, &twice[108..216]));
    for none in [2, 3, 1 << 32, u64::MAX] {
        assert_eq!(((ARCHIVE.record)(&buffer[..228], none, &mut record), &record[..]), (13, &twice[108..216]));
    }
}

/// "2 and 3 for a wrong input or answer length; then 8 […]; then 9": each before the next.
#[test]
fn refusals_by_hand() {
    let number = |log: &[u8], room: usize, log_len: u64, input: usize, answer: usize| {
        let before = [log, &vec![0x33; room]].concat();
        let mut buffer = before.clone();
        let number = (ARCHIVE.append)(&mut buffer, log_len, &vec![1; input], &vec![2; answer]);
        assert!(number == 0 || buffer == before);
        number
    };
    let empty = words([0, 0, 108]);
    assert_eq!(number(&empty, 108, 12, 68, 40), 0);
    assert_eq!(number(&[], 0, 99, 67, 39), 2);
    assert_eq!(number(&[], 0, 99, 68, 39), 3);
    assert_eq!(number(&[], 0, 99, 68, 40), 8);
    assert_eq!(number(&empty, 107, 12, 68, 40), 9);
    assert_eq!(number(&empty, 107, 11, 68, 40), 8);
    assert_eq!(number(&empty, 0, 13, 68, 40), 8);
    for log_len in [u64::MAX, u64::MAX - 11, (1 << 32) + 12, 1 << 63] {
        assert_eq!(number(&empty, 500, log_len, 68, 40), 8);
    }
    // no record at all, and counts that wrap round to it: 108 times 2^30 is 0 in 32 bits
    for count in [1 << 30, 2 << 30, 3 << 30] {
        assert_eq!(number(&words([count, 0, 108]), 200, 12, 68, 40), 8);
        assert_eq!((ARCHIVE.count)(&words([count, 0, 108]), &mut [0; 4]), 8);
        assert_eq!((ARCHIVE.record)(&words([count, 0, 108]), 0, &mut [0; 108]), 8);
    }
    let counted = |count: usize| [vec![7; RECORD * count], words([count as u32, (RECORD * count) as u32, 108])].concat();
    for (count, said) in [(65_534, 0), (65_535, 9), (65_536, 8)] {
        let log = counted(count);
        assert_eq!(log.len(), RECORD * count + TRAILER);
        assert_eq!(number(&log, 108, log.len() as u64, 68, 40), said, "{count}");
        assert_eq!((ARCHIVE.count)(&log, &mut [0; 4]), if count > 65_535 { 8 } else { 0 });
    }
    // the reader's order
    assert_eq!((ARCHIVE.count)(&[], &mut [0; 5]), 2);
    assert_eq!((ARCHIVE.count)(&[], &mut [0; 4]), 8);
    assert_eq!((ARCHIVE.record)(&[], 0, &mut [0; 107]), 14);
    assert_eq!((ARCHIVE.record)(&[], 0, &mut [0; 108]), 8);
    assert_eq!((ARCHIVE.record)(&empty, 0, &mut [0; 108]), 13);
}
