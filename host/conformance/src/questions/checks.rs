//! The check of a log.

use super::logs::trailer;
use super::{plain, Made, Section, REQUESTS};
use crate::conform::Level;
use compare::audit::sweep::{other, spoil, Record};
use compare::audit::{Given, AGILE, COMMAND, FLAG, MARGIN};
use compare::generate::Rng;
use compare::joint::bytes::put;
use compare::log::RECORD;
use compare::slow::{stepped, threshold};

pub const SECTIONS: &[Made] = &[
    Made { file: "36-check", name: "whether a log is right", words: &["Whether a log's flags are those that its own margins demand from a fresh shield, and its commands those that its flags demand. Yes, or the first wrong record, counted from 0."], place: REQUESTS, level: Level::Bits, lines: checks },
    Made { file: "37-check-bytes", name: "long logs, and every refusal of a check", words: &["Refusals 8, then 10."], place: REQUESTS, level: Level::Bytes, lines: refused },
];

fn with(given: Given) -> String {
    [given.profile, given.enter.to_bits(), given.exit.to_bits()].map(|word| plain(&word.to_le_bytes())).join(" ")
}

fn check(s: &mut Section, records: &[Record], all: &[Given]) {
    s.ask("log");
    records.iter().for_each(|record| drop(s.ask(format!("append {} {}", plain(&record[..68]), plain(&record[68..])))));
    all.iter().for_each(|given| drop(s.ask(format!("check {}", with(*given)))));
}

const BAND: Given = Given { profile: 0, enter: 0.5, exit: 1.0 };

/// A record with this margin and this flag; what it carries goes with the flag.
fn record(margin: f32, flag: u32) -> Record {
    let mut record = [0; RECORD];
    put(&mut record, MARGIN, margin.to_bits());
    put(&mut record, FLAG, flag);
    for (k, x) in [0.25f32, -0.5, 0.125].into_iter().enumerate() {
        put(&mut record, AGILE + k, x.to_bits());
        put(&mut record, COMMAND + k, if flag == 0 { x.to_bits() } else { 0 });
    }
    record
}

fn right(margins: &[f32]) -> Vec<Record> {
    margins.iter().zip(stepped(margins, 0.5, 1.0)).map(|(margin, flag)| record(*margin, flag.into())).collect()
}

fn checks(s: &mut Section) {
    let lost = Given { profile: 1, ..BAND };
    check(s, &[], &[BAND, lost]);
    // through the band from both sides, at both thresholds, and what is not finite; each flag turned in its turn
    let margins = [
        0.75,
        1.0,
        1.5,
        0.75,
        0.5,
        0.25,
        0.75,
        1.0,
        1.5,
        f32::NAN,
        0.75,
        f32::INFINITY,
        1.5,
        f32::INFINITY,
        0.75,
        1.5,
        f32::NEG_INFINITY,
        1.0,
    ];
    let all = right(&margins);
    check(
        s,
        &all,
        &[BAND, lost, Given { enter: 0.5, exit: 0.25, ..BAND }, Given { enter: f32::NAN, exit: 0.3, ..BAND }, Given { enter: 0.6, ..BAND }],
    );
    for at in 0..all.len() {
        let mut turned = all.clone();
        let flag = u32::from(turned[at][4 * FLAG] == 0);
        turned[at] = record(margins[at], flag);
        check(s, &turned[..=at], &[BAND]);
    }
    // flags that are none, commands that do not go with theirs
    for (flag, margin) in [(0, 1.5), (1, 0.25)] {
        for odd in [2, 3, 255, 256, 257, 1 << 16, 1 << 24, 0x3f80_0000, u32::MAX] {
            let mut wrong = record(margin, flag);
            put(&mut wrong, FLAG, odd);
            check(s, &[wrong], &[BAND]);
        }
        for k in 0..3 {
            for (agile, command) in [
                (0, 0x8000_0000),
                (0x8000_0000, 0x8000_0000),
                (0x8000_0000, 0),
                (0x7fc0_0000, 0),
                (0x7fc0_0000, 0x7fc0_0000),
                (0x7f80_0001, 0x7fc0_0000),
                (0x7f80_0000, 0x7f80_0000),
                (0xff80_0000, 0),
                (1, 1),
                (1, 0),
                (0x3f80_0000, 0x3f80_0000),
                (0x3f80_0000, 0x3f80_0001),
                (0x7f7f_ffff, 0xff7f_ffff),
                (0, 0x7fc0_0000),
                (0, 0x7f80_0000),
            ] {
                let mut other = record(margin, flag);
                put(&mut other, AGILE + k, agile);
                put(&mut other, COMMAND + k, command);
                check(s, &[other], &[BAND, lost]);
            }
        }
        // with a rotor lost the third word is zero where the planner flies
        let mut third = record(margin, flag);
        put(&mut third, COMMAND + 2, 0);
        check(s, &[third], &[BAND, lost]);
    }
    // what is not looked at
    let mut wild = record(1.5, 0);
    (0..11).chain(14..20).chain([24, 25]).for_each(|at| put(&mut wild, at, 0x7fc0_0000));
    check(s, &[wild], &[BAND]);
    // logs of other boxes, right ones and spoilt ones
    let mut rng = Rng::new("kit checks", 0);
    for n in 0..40 {
        let rng = &mut rng;
        let given = Given { profile: n % 2, enter: threshold(rng), exit: threshold(rng) };
        let mut records = other(rng, given, 1 + n as usize % 7);
        if n % 4 > 0 {
            let place = rng.below(records.len());
            spoil(rng, &mut records[place], given);
        }
        let elsewhere = Given { enter: threshold(rng), exit: threshold(rng), ..given };
        check(s, &records, &[given, elsewhere, Given { profile: 1 - given.profile, ..given }]);
    }
}

fn refused(s: &mut Section) {
    let planner = plain(&record(1.5, 0));
    let [input, answer] = [&record(0.25, 0)[..68], &record(0.25, 0)[68..]].map(plain);
    // wrong at a place that is no byte's, and at the last
    for count in [254, 255, 256, 300, 65_534] {
        s.ask(format!("log {planner}*{count}+{} 00*108", trailer(count)));
        s.ask(format!("check {}", with(BAND)));
        s.ask(format!("append {input} {answer}"));
        s.ask(format!("check {}", with(BAND)));
    }
    for count in [65_535, 65_536] {
        s.ask(format!("log {planner}*{count}+{} -", trailer(count)));
        s.ask(format!("check {} a5*4", with(BAND)));
    }
    // every pair of a verdict's length, no log, and a profile that is none
    for log in [format!("{planner}+{}", trailer(1)), format!("{planner}+{}", trailer(2)), trailer(0), "00*12".to_string(), "-".to_string()]
    {
        s.ask(format!("log {log} -"));
        for profile in [0, 1, 2, 3, 255, 256, 257, 1 << 16, 1 << 24 | 1, 1 << 31, u32::MAX] {
            for room in ["a5*4", "a5*3", "a5*5", "-"] {
                s.ask(format!("check {} {room}", with(Given { profile, ..BAND })));
            }
        }
    }
}
