//! The check of a log: the archive's verdicts against document 02's sentence, log by log.

use compare::audit::judge::{self, Fault, WRONG};
use compare::audit::{archive, sweep, Given, AGILE, COMMAND, FLAG, MARGIN, RIGHT};
use compare::log::model::written;
use std::time::Instant;

fn runs() -> Vec<sweep::Run> {
    sweep::runs().unwrap_or_else(|text| panic!("{text}"))
}

#[test]
fn every_verdict_is_the_documents() {
    let start = Instant::now();
    let seen = sweep::all(&archive, &runs()).unwrap_or_else(|text| panic!("{text}"));
    println!("{seen}\n{:.1} s", start.elapsed().as_secs_f32());
    // a sweep that never goes where the errors are shows nothing
    assert!([0, 2, 8, 10].iter().all(|number| seen.numbers[*number] > 1000), "{seen}");
    assert!(seen.verdicts.as_flattened().iter().all(|count| *count > 1000), "{seen}");
    assert!([seen.plain, seen.on_routes, seen.exchanges, seen.refused].iter().all(|count| *count > 500), "{seen}");
    assert!(seen.runs.iter().all(|count| *count > 100) && seen.full == 2 && seen.mended > 1000, "{seen}");
    // each word that is judged is found wrong, and no other one is ever
    for (at, [_, wrong]) in seen.damaged.iter().enumerate() {
        let judged = (AGILE..AGILE + 3).contains(&at) || (COMMAND..COMMAND + 3).contains(&at) || at == FLAG || at == MARGIN;
        assert!(if judged { *wrong > 50 } else { *wrong == 0 }, "word {at}: {seen}");
    }
}

#[test]
fn what_looks_right_but_is_wrong_is_caught() {
    let runs = runs();
    let caught = |(fault, name): &&(Fault, &str)| match sweep::all(&|log, given, to| judge::check(*fault, log, given, to), &runs) {
        Err(text) => {
            println!("{name}: {text:.200}");
            true
        }
        Ok(_) => false,
    };
    let missed: Vec<&str> = WRONG.iter().filter(|fault| !caught(fault)).map(|(_, name)| *name).collect();
    assert!(missed.is_empty(), "not caught: {missed:?}");
}

/// What the wrong ones are made from is right. So is a latch that is the flag of the record before: the verdict is the first wrong record, and before that one
/// the flags are the latch's.
#[test]
fn record_by_record_says_the_same() {
    let runs = runs();
    for fault in [Fault::None, Fault::LastFlag] {
        sweep::all(&|log, given, to| judge::check(fault, log, given, to), &runs).unwrap_or_else(|text| panic!("{fault:?}: {text}"));
    }
}

// Some lines of document 02 by hand, through the archive; the model has no part in them.

const PLAIN: Given = Given { profile: 0, enter: 0.5, exit: 1.0 };
const LOST: Given = Given { profile: 1, ..PLAIN };

/// A record of these words, all others with NaNs of any payload.
fn record(agile: [u32; 3], command: [u32; 3], flag: u32, margin: f32) -> Vec<u8> {
    let mut words = [0xffa5_a5a5u32; 27];
    words[11..14].copy_from_slice(&agile);
    words[20..23].copy_from_slice(&command);
    (words[23], words[26]) = (flag, margin.to_bits());
    words.into_iter().flat_map(u32::to_le_bytes).collect()
}

fn verdict(records: &[Vec<u8>], given: Given) -> u32 {
    let mut verdict = [0xee; 4];
    let log = written(&records.iter().map(|record| &record[..]).collect::<Vec<_>>());
    assert_eq!(archive(&log, given, &mut verdict), 0);
    u32::from_le_bytes(verdict)
}

/// Of one record at a margin that lets the planner fly, or the fallback.
fn one(agile: [u32; 3], command: [u32; 3], flag: u32, margin: f32, given: Given) -> bool {
    match verdict(&[record(agile, command, flag, margin)], given) {
        RIGHT => true,
        0 => false,
        place => panic!("{place} of one record"),
    }
}

/// "An empty log gets yes."
#[test]
fn an_empty_log() {
    assert_eq!((verdict(&[], PLAIN), verdict(&[], LOST)), (RIGHT, RIGHT));
}

/// Document 01's `shieldtable`: each flag in turn made the other is the first wrong record.
#[test]
fn the_table_by_hand() {
    let table = [(1.0, 1), (1.5, 0), (0.75, 0), (0.5, 0), (0.25, 1), (0.75, 1), (1.5, 0), (f32::NAN, 1), (f32::INFINITY, 1)];
    let mut records: Vec<Vec<u8>> = table.iter().map(|(margin, flag)| record([0; 3], [0; 3], *flag, *margin)).collect();
    assert_eq!(verdict(&records, PLAIN), RIGHT);
    for place in 0..records.len() {
        let (kept, (margin, flag)) = (records[place].clone(), table[place]);
        for other in [1 - flag, 2, u32::MAX, flag | 1 << 8, flag | 1 << 31] {
            records[place] = record([0; 3], [0; 3], other, margin);
            assert_eq!(verdict(&records, PLAIN), place as u32);
            // and it stays the first, whatever is wrong after it
            let rest = records.split_off(place + 1);
            records.resize(table.len(), record([0; 3], [1; 3], 7, 0.0));
            assert_eq!(verdict(&records, PLAIN), place as u32);
            records.truncate(place + 1);
            records.extend(rest);
        }
        records[place] = kept;
    }
}

/// "each record flagged 0 carries its agile words with non-finite made zero"
#[test]
fn the_planner_s_words() {
    let planner = |agile, command| one(agile, command, 0, 2.0, PLAIN);
    let (plus, minus, any) = (0, 0x8000_0000, 0x3f12_3456);
    assert!(planner([any, plus, minus], [any, plus, minus]));
    assert!(!planner([any, plus, minus], [any, minus, minus]) && !planner([any, plus, minus], [any, plus, plus]));
    assert!(!planner([any, plus, minus], [any + 1, plus, minus]));
    for none in [0x7f80_0000, 0xff80_0000, 0x7fc0_0000, 0x7f80_0001, 0xffff_ffff] {
        for k in 0..3 {
            let (mut agile, mut command) = ([any; 3], [any; 3]);
            (agile[k], command[k]) = (none, plus);
            assert!(planner(agile, command));
            for wrong in [minus, none, 0x7fc0_0000, any] {
                command[k] = wrong;
                assert!(!planner(agile, command), "{none:08x} as {wrong:08x}");
            }
        }
    }
}

/// "(the third zero in the lost-rotor profile)": the planner's; of the fallback's it is enough that they are finite, in either profile.
#[test]
fn the_third_word() {
    let any = [0x3f80_0000, 0xbf80_0000, 0x4000_0000];
    let zero = [any[0], any[1], 0];
    let as_given = |flag, margin| {
        [(any, PLAIN), (zero, PLAIN), (any, LOST), (zero, LOST)].map(|(command, given)| one(any, command, flag, margin, given))
    };
    assert_eq!(as_given(0, 2.0), [true, false, false, true]);
    assert_eq!(as_given(1, 0.0), [true; 4]);
    assert!(!one(any, [any[0], any[1], 0x8000_0000], 0, 2.0, LOST) && one([0; 3], [0, 0, 0], 0, 2.0, LOST));
    for none in [0x7f80_0000, 0xff80_0000, 0x7fc0_0000, 0xff80_0001] {
        for k in 0..3 {
            let mut command = any;
            command[k] = none;
            assert!(!one(any, command, 1, 0.0, PLAIN) && !one(any, command, 1, 0.0, LOST));
        }
    }
}

/// "8 as in Two, then 10"; 2 before both. Nothing is written.
#[test]
fn refusals_by_hand() {
    let refused = |log: &[u8], profile, room: usize| {
        let mut verdict = vec![0xee; room];
        let number = archive(log, Given { profile, ..PLAIN }, &mut verdict);
        assert!(number != 0 && verdict.iter().all(|byte| *byte == 0xee));
        number
    };
    let empty = written(&[]);
    assert_eq!((refused(&[], 2, 3), refused(&empty, 0, 5), refused(&empty, 0, 0)), (2, 2, 2));
    assert_eq!((refused(&[], 2, 4), refused(&empty[1..], 0, 4), refused(&[0; 120], 1, 4)), (8, 8, 8));
    assert_eq!([2, 256, 1 << 31, u32::MAX].map(|profile| refused(&empty, profile, 4)), [10; 4]);
}

/// "enter and exit (mended as at set-up)": 0.1 and 0.2 where neither is any use; an exit of +infinity, at which the planner never flies.
#[test]
fn thresholds_are_mended() {
    let flags = |margins: &[f32], enter, exit| {
        let given = Given { enter, exit, ..PLAIN };
        margins.iter().map(|margin| [0, 1].map(|flag| one([0; 3], [0; 3], flag, *margin, given))).collect::<Vec<_>>()
    };
    let (released, held) = ([true, false], [false, true]);
    for (enter, exit) in [(f32::NAN, f32::NAN), (0.0, 0.1), (-1.0, f32::INFINITY), (f32::INFINITY, -0.0)] {
        assert_eq!(flags(&[0.2, 0.2f32.next_up()], enter, exit), [held, released]);
    }
    assert_eq!(flags(&[f32::MAX, f32::INFINITY], f32::MAX, 0.0), [held, held]);
    assert_eq!(flags(&[f32::from_bits(2), f32::from_bits(3)], f32::from_bits(1), f32::NAN), [held, released]);
}
