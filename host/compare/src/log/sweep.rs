//! The calls beside the model, on bytes between guards: every length, damaged trailers, the ends of the count, real flights.

use super::{model, Face, MOST, RECORD, TRAILER};
use crate::counts::{counts, Counts};
use crate::generate::Rng;
use crate::joint::bytes::{put, ANSWER, IMAGE, TICK};
use crate::joint::lent::{Lent, LONGEST};
use crate::joint::model::{Flight, Right};
use crate::joint::pilot::{self, Pilot};
use crate::joint::refusal::Refusals;
use crate::joint::route::Source;
use crate::portion;
use std::fmt;

counts! {
    /// The calls made, by the number that they give.
    pub struct Seen {
        pub append: [u64; 15],
        pub count: [u64; 15],
        pub record: [u64; 15],
    }
}

impl fmt::Display for Seen {
    fn fmt(&self, f: &mut fmt::Formatter<'_>) -> fmt::Result {
        let given = |f: &mut fmt::Formatter<'_>, name: &str, calls: &[u64]| {
            write!(f, "{name}:")?;
            calls.iter().enumerate().filter(|(_, n)| **n > 0).try_for_each(|(number, n)| write!(f, " {number} {n} times"))
        };
        given(f, "append", &self.append)?;
        given(f, "; count", &self.count)?;
        given(f, "; record", &self.record)
    }
}

/// A call that writes one buffer, by the model and by ours: the same number, the same bytes, and none beside them.
fn alike(
    seen: &mut [u64],
    buffer: &Lent,
    theirs: impl FnOnce(&mut [u8]) -> u32,
    ours: impl FnOnce(&mut [u8]) -> u32,
    call: impl FnOnce() -> String,
) -> Result<(), String> {
    let (mut left, mut expected) = (buffer.clone(), buffer.clone());
    let (number, returned) = (theirs(expected.bytes_mut()), ours(left.bytes_mut()));
    seen[number as usize] += 1;
    if returned != number || left != expected {
        return Err(format!("{} returns {returned}, expected {number}, or leaves other bytes", call()));
    }
    Ok(())
}

/// Both sides on the same bytes.
struct Sides<'a> {
    face: &'a Face,
    seen: Seen,
}

impl<'a> Sides<'a> {
    fn of(face: &'a Face) -> Self {
        Sides { face, seen: Seen::NONE }
    }

    fn append(&mut self, buffer: &Lent, log_len: u64, input: &Lent, answer: &Lent) -> Result<(), String> {
        let kept = (input.clone(), answer.clone());
        let call = || format!("append to a log of {log_len} bytes in {}, with {} and {},", buffer.len, input.len, answer.len);
        let theirs = |buffer: &mut [u8]| model::append(buffer, log_len, input.bytes(), answer.bytes());
        let ours = |buffer: &mut [u8]| (self.face.append)(buffer, log_len, input.bytes(), answer.bytes());
        alike(&mut self.seen.append, buffer, theirs, ours, call)?;
        if (input, answer) != (&kept.0, &kept.1) {
            return Err(format!("{} changes them", call()));
        }
        Ok(())
    }

    fn count(&mut self, log: &Lent, to: &Lent) -> Result<(), String> {
        let call = || format!("the count of {} bytes into {}", log.len, to.len);
        alike(&mut self.seen.count, to, |to| model::count(log.bytes(), to), |to| (self.face.count)(log.bytes(), to), call)
    }

    fn record(&mut self, log: &Lent, place: u64, to: &Lent) -> Result<(), String> {
        let call = || format!("record {place} of {} bytes into {}", log.len, to.len);
        alike(&mut self.seen.record, to, |to| model::record(log.bytes(), place, to), |to| (self.face.record)(log.bytes(), place, to), call)
    }

    /// The count, and the records about both ends; the log stays.
    fn read(&mut self, log: &Lent) -> Result<(), String> {
        let kept = log.clone();
        self.count(log, &Lent::of(&[0xee; 4]))?;
        let to = Lent::of(&[0xee; RECORD]);
        let by_length = (log.len / RECORD) as u64;
        let about = |n: u64| (n.saturating_sub(2)..n + 2).chain([n + (1 << 32)]);
        let mut places: Vec<u64> = about(0).chain(about(by_length)).chain([u64::MAX, 1 << 63]).collect();
        places.sort_unstable();
        places.dedup();
        places.into_iter().try_for_each(|place| self.record(log, place, &to))?;
        if *log != kept {
            return Err(format!("a log of {} bytes is changed by reading it", log.len));
        }
        Ok(())
    }

    fn seen(self) -> Result<Seen, String> {
        Ok(self.seen)
    }
}

/// Records of any bits, with words of NaNs among them.
fn any_records(rng: &mut Rng, count: usize) -> Vec<[u8; RECORD]> {
    let one = |rng: &mut Rng| {
        let mut record = [0; RECORD];
        (0..RECORD / 4).for_each(|at| put(&mut record, at, if rng.flag() { rng.bits() as u32 } else { rng.special().to_bits() }));
        // a NaN that is not the canonical one
        put(&mut record, rng.below(TICK / 4), 0x7f80_0001 | (rng.bits() as u32 & 0x803f_ffff));
        record
    };
    (0..count).map(|_| one(rng)).collect()
}

fn log_of(records: &[[u8; RECORD]]) -> Vec<u8> {
    model::written(&records.iter().map(|record| &record[..]).collect::<Vec<_>>())
}

/// A tick's input and an answer.
fn tick(rng: &mut Rng) -> (Lent, Lent) {
    let record = any_records(rng, 1)[0];
    let (input, answer) = record.split_at(TICK);
    (Lent::of(input), Lent::of(answer))
}

fn put_trailer(log: &mut [u8], words: [u32; 3]) {
    if let Some(at) = log.len().checked_sub(TRAILER) {
        words.iter().enumerate().for_each(|(k, word)| put(&mut log[at..], k, *word));
    }
}

/// A log of 0 to 3 records, cut at every length from 0 to 400, and with its trailer moved there, in a buffer of every length from 0 to 400, or their share;
/// of every length for the log itself.
pub fn lengths(face: &Face) -> Result<Seen, String> {
    let (mut sides, mut rng) = (Sides::of(face), Rng::new("log lengths", 0));
    let (input, answer) = tick(&mut rng);
    for count in 0..4 {
        let log = log_of(&any_records(&mut rng, count));
        let whole = Lent::with_room(&log, LONGEST - log.len());
        for len in 0..=LONGEST {
            for moved in [false, true] {
                let mut buffer = whole.clone();
                if moved {
                    put_trailer(&mut buffer.bytes_mut()[..len], [count as u32, (RECORD * count) as u32, RECORD as u32]);
                }
                buffer.len = len;
                sides.read(&buffer)?;
                for all in (0..=LONGEST).filter(|all| portion::has(len, log.len(), len + all)) {
                    buffer.len = all;
                    sides.append(&buffer, len as u64, &input, &answer)?;
                }
            }
        }
    }
    sides.seen()
}

/// Every length from 0 to 400 of the input, the answer (or a share of the two together), and what takes a count or a record; with a log that is good,
/// full or broken.
pub fn other_lengths(face: &Face) -> Result<Seen, String> {
    let (mut sides, mut rng) = (Sides::of(face), Rng::new("log other lengths", 0));
    let log = log_of(&any_records(&mut rng, 2));
    let (good, full) = (Lent::with_room(&log, 150), Lent::with_room(&log, RECORD - 1));
    let (mut input, mut answer) = (Lent::of(&[0x11; LONGEST]), Lent::of(&[0x22; LONGEST]));
    for (buffer, log_len) in [(&good, log.len()), (&full, log.len()), (&good, log.len() - 1), (&full, full.len + 1)] {
        for n in 0..=LONGEST {
            for a in (0..=LONGEST).filter(|a| portion::has(n, TICK, n + a) || portion::has(*a, ANSWER, n + a)) {
                (input.len, answer.len) = (n, a);
                sides.append(buffer, log_len as u64, &input, &answer)?;
            }
        }
    }
    let mut to = answer;
    for log in [Lent::of(&log), Lent::of(&log[1..]), Lent::of(&[])] {
        for n in 0..=LONGEST {
            to.len = n;
            sides.count(&log, &to)?;
            [0, 1, 2, u64::MAX].into_iter().try_for_each(|place| sides.record(&log, place, &to))?;
        }
    }
    sides.seen()
}

/// Lengths that no buffer has: beyond it, beyond 2^32, near 2^64.
pub fn far_lengths(face: &Face) -> Result<Seen, String> {
    let (mut sides, mut rng) = (Sides::of(face), Rng::new("log far lengths", 0));
    let (input, answer) = tick(&mut rng);
    for count in 0..4 {
        let log = log_of(&any_records(&mut rng, count));
        let len = log.len() as u64;
        for room in [0, 1, RECORD - 1, RECORD, RECORD + 1, 4 * RECORD] {
            let buffer = Lent::with_room(&log, room);
            let beyond = buffer.len as u64 + 1..buffer.len as u64 + 130;
            let wide = [1u64 << 32, 1 << 33, 1 << 63, u64::MAX << 32].map(|high| high + len);
            let low = u64::MAX - 400..=u64::MAX;
            beyond.chain(wide).chain(low).chain([len]).try_for_each(|log_len| sides.append(&buffer, log_len, &input, &answer))?;
        }
    }
    sides.seen()
}

/// Each byte of the trailer made every other, and words about what each of them is tested by.
pub fn trailers(face: &Face) -> Result<Seen, String> {
    let (mut sides, mut rng) = (Sides::of(face), Rng::new("log trailers", 0));
    let (input, answer) = tick(&mut rng);
    for count in [0, 1, 2, 3, 255, 256] {
        let log = log_of(&any_records(&mut rng, count));
        let len = log.len();
        let mut judge = |log: &[u8]| {
            sides.read(&Lent::of(log))?;
            sides.append(&Lent::with_room(log, RECORD), len as u64, &input, &answer)?;
            sides.append(&Lent::with_room(log, RECORD - 1), len as u64, &input, &answer)
        };
        for at in 1..=TRAILER {
            let ways = if count < 4 { (1..=255).collect() } else { vec![1, 2, 0x80, 0xff] };
            for way in ways {
                let mut damaged = log.clone();
                damaged[len - at] ^= way;
                judge(&damaged)?;
            }
        }
        let (n, record) = (count as u32, RECORD as u32);
        let near = |x: u32| [x.wrapping_sub(1), x, x.wrapping_add(1)];
        // 108 times 2^30 is 0 in 32 bits: these counts go with the same distance there
        let same = [1 << 30, 2 << 30, 3 << 30].map(|high: u32| high + n);
        for count in near(n).into_iter().chain(same).chain([0, 65_535, 65_536, 65_536 + n, n << 8, n.swap_bytes(), u32::MAX]) {
            for back in near(n * record).into_iter().chain([0, 12, (n + 1) * record, n * record + 12, count.wrapping_mul(record)]) {
                for last in near(record).into_iter().chain([0, 12, record << 8, record | 1 << 16, (record as f32).to_bits()]) {
                    let mut damaged = log.clone();
                    put_trailer(&mut damaged, [count, back, last]);
                    judge(&damaged)?;
                }
            }
        }
    }
    sides.seen()
}

/// 65,534 to 65,536 records, with no room, a byte too little, just enough, a byte more; and 65,535 with each byte of the trailer changed.
pub fn ends(face: &Face) -> Result<Seen, String> {
    let (mut sides, mut rng) = (Sides::of(face), Rng::new("log ends", 0));
    let (input, answer) = tick(&mut rng);
    let few = any_records(&mut rng, 7);
    let all: Vec<[u8; RECORD]> = few.iter().cycle().take(MOST + 1).copied().collect();
    for count in MOST - 1..=MOST + 1 {
        let log = log_of(&all[..count]);
        sides.read(&Lent::of(&log))?;
        for room in [0, RECORD - 1, RECORD, RECORD + 1] {
            sides.append(&Lent::with_room(&log, room), log.len() as u64, &input, &answer)?;
        }
        // a record earlier there stands no trailer
        sides.append(&Lent::of(&log), log.len() as u64 - 108, &input, &answer)?;
    }
    let mut log = Lent::of(&log_of(&all[..MOST]));
    for at in 1..=TRAILER {
        let place = log.len - at;
        for way in [0x80, 0xff] {
            log.bytes_mut()[place] ^= way;
            sides.count(&log, &Lent::of(&[0; 4]))?;
            log.bytes_mut()[place] ^= way;
        }
        log.bytes_mut()[place] ^= 1;
        sides.append(&log, log.len as u64, &input, &answer)?;
        log.bytes_mut()[place] ^= 1;
    }
    sides.seen()
}

/// From the empty log as many records as there may be, each read back in its turn; then none.
pub fn whole(face: &Face) -> Result<Seen, String> {
    let (mut seen, mut rng) = (Seen::NONE, Rng::new("log whole", 0));
    let records = any_records(&mut rng, MOST);
    let (mut buffer, mut log_len) = (Lent::with_room(&log_of(&[]), RECORD * (MOST + 1)), TRAILER as u64);
    let mut expected = buffer.clone();
    for (at, record) in records.iter().enumerate() {
        let (input, answer) = record.split_at(TICK);
        let returned = (face.append)(buffer.bytes_mut(), log_len, input, answer);
        if returned != 0 {
            return Err(format!("append {at} returns {returned}"));
        }
        log_len += RECORD as u64;
        seen.append[0] += 1;
    }
    let log = log_of(&records);
    expected.bytes_mut()[..log.len()].copy_from_slice(&log);
    if buffer != expected || log_len != log.len() as u64 {
        return Err("the log of all appends is another".to_string());
    }
    buffer.len = log.len();
    for (place, own) in records.iter().enumerate() {
        let mut to = [0; RECORD];
        let returned = (face.record)(buffer.bytes(), place as u64, &mut to);
        if returned != 0 || to != *own {
            return Err(format!("record {place} of {MOST} returns {returned} or is another"));
        }
        seen.record[0] += 1;
    }
    let mut sides = Sides { face, seen };
    sides.read(&buffer)?;
    buffer.len = expected.len;
    sides.append(&buffer, log_len, &Lent::of(&[0; TICK]), &Lent::of(&[0; ANSWER]))?;
    sides.seen()
}

/// The flights of `flights`, of each kind that the joint tick is run with.
pub const FLIGHTS: u64 = 96;

/// Real ticks, each logged when it is accepted, some calls that are refused between them; then the log is read back from the start.
pub fn flights(face: &Face) -> Result<Seen, String> {
    let mut seen = Seen::NONE;
    for number in 0..portion::of(FLIGHTS) {
        let (mut pilot, mut rng) = (Pilot::new(number), Rng::new("logged", number));
        let set_up = pilot.set_up();
        let (mut flight, mut image) = (Flight::set_up(&set_up), [0; IMAGE]);
        flight.write(&mut image);
        let ticks = pilot::length(number).min(400) as usize;
        let (mut buffer, mut log_len) = (Lent::with_room(&log_of(&[]), RECORD * ticks), TRAILER);
        let mut flown: Vec<[u8; RECORD]> = Vec::new();
        while flown.len() < ticks {
            let input = pilot.next(&flight, &Source::Segment);
            let mut answer = [0; ANSWER];
            if archives::tick(&mut image, &input, &mut answer) != 0 {
                return Err(format!("flight {number}: a tick from set-up is refused with {}", Right.of_tick(&image, TICK, ANSWER)));
            }
            flight.tick(&input, &mut [0; ANSWER]);
            if rng.below(4) == 0 {
                let mut sides = Sides { face, seen };
                let short = |bytes: &[u8], rng: &mut Rng| Lent::of(&bytes[rng.below(2)..]);
                let wrong = (log_len + 1 + rng.below(200)) as u64;
                sides.append(&buffer, wrong, &short(&input, &mut rng), &short(&answer, &mut rng))?;
                seen = sides.seen;
            }
            let returned = (face.append)(buffer.bytes_mut(), log_len as u64, &input, &answer);
            if returned != 0 {
                return Err(format!("flight {number}: append {} returns {returned}", flown.len()));
            }
            log_len += RECORD;
            seen.append[0] += 1;
            flown.push([&input[..], &answer].concat().try_into().map_err(|_| "a record is 108 bytes".to_string())?);
        }
        if buffer != Lent::of(&log_of(&flown)) {
            return Err(format!("flight {number}: the log is another"));
        }
        // what a reader does that knows nothing of the flight: the count, then one record after another until there is none
        let mut count = [0xee; 4];
        let returned = (face.count)(buffer.bytes(), &mut count);
        seen.count[0] += 1;
        let (mut read, mut to) = (Vec::new(), [0; RECORD]);
        while read.len() <= ticks && (face.record)(buffer.bytes(), read.len() as u64, &mut to) == 0 {
            read.push(to);
        }
        seen.record[0] += read.len() as u64;
        if (returned, u32::from_le_bytes(count) as usize, &read) != (0, ticks, &flown) {
            return Err(format!("flight {number}: {} records are read back, of {ticks}, or are others", read.len()));
        }
    }
    Ok(seen)
}

/// All of it.
pub fn all(face: &Face) -> Result<Seen, String> {
    let mut seen = Seen::NONE;
    for sweep in [flights, far_lengths, other_lengths, lengths, trailers, whole, ends] {
        seen.add(&sweep(face)?);
    }
    Ok(seen)
}
