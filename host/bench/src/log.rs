//! The flight log's calls on logs of different lengths: appending takes the same time on each, and reading a log goes with its length. The check of the
//! longest log beside reading each of its records once.

use compare::audit::{AGILE, COMMAND, FLAG, MARGIN, RIGHT};
use compare::joint::bytes::{put, ANSWER, TICK};
use compare::log::{model, ARCHIVE, MOST, RECORD, TRAILER};
use std::hint::black_box;
use std::time::Instant;

/// How many records the logs have.
pub const COUNTS: [usize; 3] = [1, 1_000, MOST];

/// What an append may take, ns.
pub const BAR: f64 = 15.0;

const TRIES: usize = 101;
const CALLS: usize = 4096;

/// A log of so many records, of any bytes.
fn log(count: usize) -> Vec<u8> {
    let record: Vec<u8> = (0..RECORD).map(|at| at as u8).collect();
    model::written(&vec![&record[..]; count])
}

/// Nanoseconds a call at each count, the least of many tries, the counts taking turns.
pub struct Times {
    /// Of the append that makes a log of so many records.
    pub append: [f64; COUNTS.len()],
    /// Of a record, where all are read one after another.
    pub read: [f64; COUNTS.len()],
}

/// None where a call is refused.
pub fn times() -> Option<Times> {
    let least = [f64::INFINITY; COUNTS.len()];
    let (mut times, mut logs) = (Times { append: least, read: least }, COUNTS.map(log));
    for _ in 0..TRIES {
        for (at, log) in logs.iter_mut().enumerate() {
            times.append[at] = times.append[at].min(append(log)?);
        }
        for (at, log) in logs.iter().enumerate() {
            times.read[at] = times.read[at].min(read(log)?);
        }
    }
    Some(times)
}

/// The last record appended again and again: before each call the trailer that it overwrites is put back, twelve bytes at every length.
fn append(log: &mut [u8]) -> Option<f64> {
    let before = log.len() - RECORD;
    let count = before / RECORD;
    let trailer = [count, RECORD * count, RECORD].map(|word| (word as u32).to_le_bytes()).concat();
    let (input, answer, mut refused) = ([1; TICK], [2; ANSWER], 0);
    let start = Instant::now();
    for _ in 0..CALLS {
        log[before - TRAILER..before].copy_from_slice(black_box(&trailer));
        refused |= (ARCHIVE.append)(black_box(log), before as u64, black_box(&input), black_box(&answer));
    }
    let taken = start.elapsed().as_nanos() as f64 / CALLS as f64;
    (refused == 0).then_some(taken)
}

/// Every record from the start, as often as makes up for a short log.
fn read(log: &[u8]) -> Option<f64> {
    let count = (log.len() - TRAILER) / RECORD;
    let (rounds, mut to, mut refused) = (CALLS.div_ceil(count), [0; RECORD], 0);
    let start = Instant::now();
    for _ in 0..rounds {
        for place in 0..count {
            refused |= (ARCHIVE.record)(black_box(log), place as u64, &mut to);
            black_box(&to);
        }
    }
    let taken = start.elapsed().as_nanos() as f64 / (rounds * count) as f64;
    (refused == 0).then_some(taken)
}

/// Who flies at a place: 0 the planner, 1 the fallback.
type Flag = fn(usize) -> u32;

/// Who flies in the logs that are checked.
pub const FLOWN: [(&str, Flag); 2] = [
    ("hands change every 1000", |at| (at / 1000 % 2) as u32),
    ("hands change at random", |at| (at as u32).wrapping_mul(0x9e37_79b9).rotate_left(15).wrapping_mul(0x85eb_ca6b) >> 31),
];

/// Of each, nanoseconds a record: of the check, and of reading them one after another; the least of many tries, all taking turns. None where a call is
/// refused or a verdict is another.
pub fn checked() -> Option<[[f64; 2]; FLOWN.len()]> {
    let (mut least, logs) = ([[f64::INFINITY; 2]; FLOWN.len()], FLOWN.map(|(_, flag)| right(flag)));
    for _ in 0..TRIES {
        for (least, log) in least.iter_mut().zip(&logs) {
            *least = [least[0].min(check(log)?), least[1].min(read(log)?)];
        }
    }
    Some(least)
}

/// The longest log, of right records with these flags.
fn right(flag: fn(usize) -> u32) -> Vec<u8> {
    let mut records = vec![[0; RECORD]; MOST];
    for (at, record) in records.iter_mut().enumerate() {
        (0..3).for_each(|k| put(record, AGILE + k, 0x3f00_0000 + (at + k) as u32));
        (0..3).for_each(|k| put(record, COMMAND + k, 0x3f00_0000 + (at + k) as u32));
        put(record, FLAG, flag(at));
        put(record, MARGIN, f32::to_bits(if flag(at) == 0 { 1.5 } else { 0.25 }));
    }
    model::written(&records.iter().map(|record| &record[..]).collect::<Vec<_>>())
}

/// A record of the whole log's check.
fn check(log: &[u8]) -> Option<f64> {
    let (mut verdict, start) = ([0; 4], Instant::now());
    let number = archives::log_check(black_box(log), 0, 0.5, 1.0, black_box(&mut verdict));
    let taken = start.elapsed().as_nanos() as f64 / MOST as f64;
    (number == 0 && u32::from_le_bytes(verdict) == RIGHT).then_some(taken)
}
