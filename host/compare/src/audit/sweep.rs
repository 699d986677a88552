//! The call beside the model: the number, the verdict and every lent byte.

use super::{model, passed_on, Call, Given, AGILE, COMMAND, FLAG, MARGIN, RIGHT};
use crate::counts::{counts, Counts};
use crate::generate::Rng;
use crate::joint;
use crate::joint::bytes::{float, put, word, ANSWER, IMAGE, SETUP_PROFILE};
use crate::joint::guide::{Guide, MIXED};
use crate::joint::lent::{Lent, LONGEST};
use crate::joint::model::{Flight, Profile};
use crate::joint::pilot::{self, Kind, Pilot};
use crate::log::model::written;
use crate::log::{MOST, RECORD, TRAILER};
use crate::slow::{margin, mended, stepped, threshold};
use std::fmt;

const WORDS: usize = RECORD / 4;
pub type Record = [u8; RECORD];

counts! {
    /// What the logs came to.
    pub struct Seen {
        /// The calls by the number that they give.
        pub numbers: [u64; 11],
        /// Accepted calls by the profile: all right, wrong at the first record, at a later one.
        pub verdicts: [[u64; 3]; 2],
        /// Runs of our own by the profile, those of them that fill a log, and what they are made of.
        pub runs: [u64; 2],
        pub full: u64,
        pub plain: u64,
        pub on_routes: u64,
        pub exchanges: u64,
        pub refused: u64,
        /// For each word of a record, damages after which the log is right, and is wrong.
        pub damaged: [[u64; 2]; WORDS],
        /// Logs of other boxes, and those with thresholds that are mended.
        pub others: u64,
        pub mended: u64,
    }
}

impl fmt::Display for Seen {
    fn fmt(&self, f: &mut fmt::Formatter<'_>) -> fmt::Result {
        let [done, _, length, .., broken, _, profile] = self.numbers;
        writeln!(f, "{done} checks, and refused with 2, 8, 10: {length}, {broken}, {profile}")?;
        for (name, [right, first, later]) in ["whole", "a rotor lost"].iter().zip(self.verdicts) {
            writeln!(f, "{name}: {right} right, {first} wrong at the first record, {later} at a later one")?;
        }
        writeln!(
            f,
            "our own: {:?} runs by the profile, {} of {MOST} ticks; of {} plain ticks, {} on routes, {} exchanges and {} refused calls",
            self.runs, self.full, self.plain, self.on_routes, self.exchanges, self.refused
        )?;
        writeln!(f, "{} logs of other boxes, {} of them with thresholds that are mended", self.others, self.mended)?;
        write!(f, "each word damaged, right and wrong after it: {:?}", self.damaged)
    }
}

pub struct Sides<'a> {
    call: Call<'a>,
    pub seen: Seen,
}

impl<'a> Sides<'a> {
    pub fn of(call: Call<'a>) -> Self {
        Sides { call, seen: Seen::NONE }
    }

    /// The same number and the same verdict into so many bytes, none beside them touched, and none of the log; the verdict.
    fn alike(&mut self, log: &Lent, given: Given, room: usize) -> Result<u32, String> {
        let (mut left, mut expected, kept) = (Lent::of(&vec![0x5a; room]), Lent::of(&vec![0x5a; room]), log.clone());
        let number = model::check(log.bytes(), given, expected.bytes_mut());
        let returned = (self.call)(log.bytes(), given, left.bytes_mut());
        let (own, right) = (word(left.bytes(), 0), word(expected.bytes(), 0));
        if returned != number || left != expected || *log != kept {
            let call = format!("a log of {} bytes with {given:?}, the verdict into {room}", log.len);
            return Err(format!("{call}: returns {returned} and leaves {own:08x}, expected {number} and {right:08x}"));
        }
        self.seen.numbers[number as usize] += 1;
        if number == 0 {
            let way = [RIGHT, 0].iter().position(|known| *known == right).unwrap_or(2);
            self.seen.verdicts[given.profile as usize][way] += 1;
        }
        Ok(right)
    }

    fn check(&mut self, records: &[Record], given: Given) -> Result<u32, String> {
        self.alike(&Lent::of(&log_of(records)), given, 4)
    }
}

pub(crate) fn log_of(records: &[Record]) -> Vec<u8> {
    written(&records.iter().map(|record| &record[..]).collect::<Vec<_>>())
}

/// A run of our own from a set-up.
pub struct Run {
    pub given: Given,
    pub records: Vec<Record>,
    /// As appending every accepted tick left it.
    log: Vec<u8>,
    seen: Seen,
}

/// How many runs there are of our own, and how many ticks each has at most.
pub const RUNS: u64 = 400;
const LONG: u64 = 400;

/// Through the archive: so many ticks, plain and on routes, exchanges between them, calls that are refused, and appends that are.
fn run(number: u64, ticks: usize) -> Result<Run, String> {
    let (mut pilot, mut guide, mut rng) = (Pilot::new(number), Guide::new(number, MIXED), Rng::new("audited", number));
    let (set_up, mut image) = (pilot.set_up(), [0; IMAGE]);
    let given = Given { profile: word(&set_up, SETUP_PROFILE), enter: float(&set_up, 12), exit: float(&set_up, 13) };
    let (mut buffer, mut len, mut seen) = ([written(&[]), vec![0x3c; RECORD * ticks]].concat(), TRAILER, Seen::NONE);
    let wrong = |what: &str, number: u32| Err(format!("{what} is refused with {number}"));
    match archives::setup(&mut image, &set_up) {
        0 => {}
        // for its cut-off: an image that an earlier release set up so, whose log is checked as before
        11 => Flight::set_up(&set_up).write(&mut image),
        number => return wrong("a set-up", number),
    }
    let mut records = Vec::new();
    while records.len() < ticks {
        let call = guide.call();
        if call == joint::Call::Exchange {
            let number = archives::exchange(&mut image, &guide.leg(pilot.own_leg()));
            *(if number == 0 { &mut seen.exchanges } else { &mut seen.refused }) += 1;
            continue;
        }
        let flight = Flight::from_image(&image);
        let mut input = pilot.next(&flight, guide.source(call));
        guide.hurry(&mut input);
        let (mut answer, route) = ([0; ANSWER], guide.route(call, flight.time_ahead(float(&input, 7), float(&input, 10))));
        let number = match call {
            joint::Call::RouteTick => archives::route_tick(&mut image, &input, &route, &mut answer),
            _ => archives::tick(&mut image, &input, &mut answer),
        };
        if number != 0 {
            seen.refused += 1;
            continue;
        }
        *(if call == joint::Call::RouteTick { &mut seen.on_routes } else { &mut seen.plain }) += 1;
        if rng.below(8) == 0 {
            seen.refused += u64::from(archives::log_append(&mut buffer, len as u64 + 1, &input, &answer) == 8);
        }
        let number = archives::log_append(&mut buffer, len as u64, &input, &answer);
        if number != 0 {
            return wrong("an append", number);
        }
        len += RECORD;
        records.push([&input[..], &answer].concat().try_into().map_err(|_| "a record is 108 bytes".to_string())?);
    }
    seen.runs[given.profile as usize] += 1;
    seen.full += u64::from(ticks == MOST);
    Ok(Run { given, records, log: buffer, seen })
}

/// All of them, and in each profile a pass of as many ticks as a log has room for.
pub fn runs() -> Result<Vec<Run>, String> {
    let pass = |profile: Profile| (0..RUNS).find(|number| pilot::kind(*number) == Kind::Pass && Pilot::new(*number).profile == profile);
    let longest = [Profile::Whole, Profile::LostRotor].into_iter().filter_map(pass).map(|number| run(number, MOST));
    (0..RUNS).map(|number| run(number, pilot::length(number).min(LONG) as usize)).chain(longest).collect()
}

/// "Any log of every tick of one run from our own set-up, given with that set-up's enter, exit and profile, is accepted." So is each start of it, which is
/// a run too. With other thresholds and the other profile the model says what it is.
pub fn own(sides: &mut Sides, runs: &[Run]) -> Result<(), String> {
    let mut rng = Rng::new("audit own", 0);
    for run in runs {
        let accepted = |verdict: u32, of: usize| match verdict {
            RIGHT => Ok(()),
            place => Err(format!("a run of our own of {of} ticks is not accepted: wrong at {place}")),
        };
        accepted(sides.alike(&Lent::of(&run.log), run.given, 4)?, run.records.len())?;
        for of in 0..=run.records.len().min(20) {
            accepted(sides.check(&run.records[..of], run.given)?, of)?;
        }
        for _ in 0..4 {
            let (enter, exit) = (threshold(&mut rng), threshold(&mut rng));
            sides.check(&run.records, Given { enter, exit, ..run.given })?;
        }
        sides.check(&run.records, Given { profile: 1 - run.given.profile, ..run.given })?;
        sides.seen.add(&run.seen);
    }
    Ok(())
}

/// What a word is replaced by: zeros, infinities, NaNs with payloads, and what may be taken for a flag.
const OTHER: [u32; 18] = [
    0,
    1,
    2,
    3,
    255,
    256,
    257,
    1 << 16,
    1 << 24,
    0x3f80_0000,
    0x7f80_0000,
    0x7f80_0001,
    0x7fc0_0000,
    0x8000_0000,
    0x8000_0001,
    0xff80_0000,
    0xffc0_0001,
    0xffff_ffff,
];

/// Each word of some records replaced, one at a time, and put back.
pub fn damaged(sides: &mut Sides, runs: &[Run]) -> Result<(), String> {
    let mut rng = Rng::new("audit damaged", 0);
    for run in runs.iter().filter(|run| run.records.len() > 2).take(200) {
        let mut records = run.records[..run.records.len().min(24)].to_vec();
        for at in 0..WORDS {
            let place = rng.below(records.len());
            let kept = records[place];
            let own = word(&kept, at);
            let near = rng.near(f32::from_bits(own)).to_bits();
            for new in OTHER.into_iter().chain([own ^ 1, own ^ 1 << 31, own ^ 1 << 22, near, rng.bits() as u32]) {
                put(&mut records[place], at, new);
                let right = sides.check(&records, run.given)? == RIGHT;
                sides.seen.damaged[at][usize::from(!right)] += 1;
            }
            records[place] = kept;
        }
    }
    Ok(())
}

/// A word as a planner may want it.
fn agile(rng: &mut Rng) -> u32 {
    match rng.below(6) {
        0 => rng.special().to_bits(),
        1 => rng.of(&OTHER).unwrap_or(0),
        2 => rng.bits() as u32,
        _ => rng.range(-2.0, 2.0).to_bits(),
    }
}

/// A log as another box writes it: margins of its own, and right records to them.
pub fn other(rng: &mut Rng, given: Given, length: usize) -> Vec<Record> {
    let (enter, exit) = mended(given.enter, given.exit);
    let margins: Vec<f32> = (0..length).map(|_| margin(rng, enter, exit)).collect();
    let flags = stepped(&margins, given.enter, given.exit);
    let one = |(margin, flag): (&f32, u8)| {
        let mut record = [0; RECORD];
        (0..WORDS).for_each(|at| put(&mut record, at, agile(rng)));
        put(&mut record, FLAG, u32::from(flag));
        put(&mut record, MARGIN, margin.to_bits());
        let passed = passed_on(&record, given.profile);
        for (k, passed) in passed.into_iter().enumerate() {
            let turning = rng.range(-2.0, 2.0).to_bits();
            let held = rng.of(&[0, 0x8000_0000, 1, 0x7f7f_ffff, 0xff7f_ffff, turning]).unwrap_or(0);
            put(&mut record, COMMAND + k, if flag == 0 { passed } else { held });
        }
        record
    };
    margins.iter().zip(flags).map(one).collect()
}

/// Something wrong with a record, or only something else: one word of it is another.
pub fn spoil(rng: &mut Rng, record: &mut Record, given: Given) {
    let (k, third, any) = (rng.below(3), 2, rng.of(&OTHER).unwrap_or(2));
    let (agile_word, command) = (word(record, AGILE + k), word(record, COMMAND + k));
    let (enter, exit) = mended(given.enter, given.exit);
    let (at, new) = match rng.below(12) {
        0 => (FLAG, word(record, FLAG) ^ 1),
        1 => (FLAG, any),
        2 => (COMMAND + k, command ^ 1 << 31),
        3 => (COMMAND + k, rng.of(&[0, 0x8000_0000]).unwrap_or(0)),
        4 => (COMMAND + k, any),
        5 => (COMMAND + k, command ^ 1),
        6 => (MARGIN, margin(rng, enter, exit).to_bits()),
        7 => (AGILE + k, agile(rng)),
        // as the other profile has it
        8 => (COMMAND + third, if given.profile == 1 { word(record, AGILE + third) } else { 0 }),
        // as it is, though it may not be finite
        9 => (COMMAND + k, agile_word),
        10 => (rng.below(WORDS), rng.bits() as u32),
        _ => (14 + rng.below(6), agile(rng)),
    };
    put(record, at, new);
}

/// Logs of other boxes of every length to 150, right ones and with up to three records spoilt, and each with other thresholds and the other profile.
pub fn others(sides: &mut Sides) -> Result<(), String> {
    let mut rng = Rng::new("audit others", 0);
    for length in 0..150 {
        for round in 0..24 {
            let rng = &mut rng;
            let given = Given { profile: round % 2, enter: threshold(rng), exit: threshold(rng) };
            let mut records = other(rng, given, length);
            if sides.check(&records, given)? != RIGHT {
                return Err(format!("a log of {length} right records is not accepted with {given:?}"));
            }
            for _ in 0..rng.below(4).min(length) {
                let place = rng.below(length);
                spoil(rng, &mut records[place], given);
            }
            sides.check(&records, given)?;
            sides.check(&records, Given { enter: threshold(rng), exit: threshold(rng), ..given })?;
            sides.check(&records, Given { profile: 1 - given.profile, ..given })?;
            sides.check(&records, Given { profile: rng.of(&PROFILES).unwrap_or(2), ..given })?;
            sides.seen.others += 1;
            let (enter, exit) = mended(given.enter, given.exit);
            sides.seen.mended += u64::from((enter, exit) != (given.enter, given.exit));
        }
    }
    Ok(())
}

/// Words that are no profile, and the two that are.
pub(crate) const PROFILES: [u32; 11] = [0, 1, 2, 3, 255, 256, 257, 1 << 16, 1 << 24 | 1, 1 << 31, u32::MAX];

/// A log of 0 to 3 records cut at every length from 0 to 400, and with its trailer moved there; with every profile; and the verdict into every length.
pub fn lengths(sides: &mut Sides) -> Result<(), String> {
    let mut rng = Rng::new("audit lengths", 0);
    for count in 0..4 {
        let given = Given { profile: 0, enter: 0.5, exit: 1.0 };
        let log = log_of(&other(&mut rng, given, count));
        let whole = Lent::with_room(&log, LONGEST - log.len());
        for len in 0..=LONGEST {
            for moved in [false, true] {
                let mut buffer = whole.clone();
                buffer.len = len;
                if let (true, Some(at)) = (moved, len.checked_sub(TRAILER)) {
                    let trailer = [count, RECORD * count, RECORD];
                    trailer.iter().enumerate().for_each(|(k, word)| put(&mut buffer.bytes_mut()[at..], k, *word as u32));
                }
                PROFILES.into_iter().try_for_each(|profile| sides.alike(&buffer, Given { profile, ..given }, 4).map(|_| ()))?;
            }
        }
        for log in [Lent::of(&log), Lent::of(&log[1..])] {
            for room in 0..=LONGEST {
                [0, 1, 2].into_iter().try_for_each(|profile| sides.alike(&log, Given { profile, ..given }, room).map(|_| ()))?;
            }
        }
    }
    Ok(())
}

/// 65,534 to 65,536 records: all right, and wrong at the last alone, at the first, in the middle.
pub fn ends(sides: &mut Sides) -> Result<(), String> {
    let mut rng = Rng::new("audit ends", 0);
    let given = Given { profile: 0, enter: 0.5, exit: 1.0 };
    let all = other(&mut rng, given, MOST + 1);
    for count in MOST - 1..=MOST + 1 {
        let mut log = Lent::of(&log_of(&all[..count]));
        sides.alike(&log, given, 4)?;
        for place in [count - 1, 0, count / 2] {
            let at = RECORD * place + 4 * FLAG;
            log.bytes_mut()[at] ^= 1;
            sides.alike(&log, given, 4)?;
            log.bytes_mut()[at] ^= 1;
        }
    }
    Ok(())
}

/// All of it.
pub fn all(call: Call, runs: &[Run]) -> Result<Seen, String> {
    let mut sides = Sides::of(call);
    lengths(&mut sides)?;
    others(&mut sides)?;
    own(&mut sides, runs)?;
    damaged(&mut sides, runs)?;
    ends(&mut sides)?;
    Ok(sides.seen)
}
