//! Where a route is at a time: the archive's call beside the Rust's own segments, asked for their `eval` at the time on the leg flown.

use super::bytes::{canonical, Put, LEG, MOST_LEGS};
use super::guide::{Guide, MIXED};
use super::model::Right;
use super::refusal::Refusals;
use super::route::{Legs, Place};
use super::Call;
use crate::counts::{counts, Counts};
use crate::faults::faults;
use crate::generate::Rng;
use crate::threads;
use std::fmt;
use std::sync::Mutex;

/// The leg, and position, velocity, acceleration and jerk.
pub const SAMPLE: usize = 52;

/// The call, of the archive or of what stands in its place: route, time, what takes the sample.
pub type Face<'a> = &'a (dyn Fn(&[u8], f32, &mut [u8]) -> u32 + Sync);

faults! {
    // of the leg and the time on it
    LegFromOne,
    EndOfTheLegBefore,
    TimeOfTheRoute,
    PastAtTheStart,
    NoNumberAtTheStart,
    BelowZeroRefused,
    // of what is written
    VelocityAfterAcceleration,
    AxisByAxis,
    LegAsANumber,
    Cleaned,
    JerkLeftOut,
    // of what is refused
    RouteFirst,
    EightLegs,
    JoinsNotLookedAt,
    WrittenThoughRefused,
    ShorterTaken,
}

/// What the call has to give and to leave.
pub fn expected(fault: Fault, route: &[u8], time: f32, sample: &mut [u8]) -> u32 {
    let refused = match (sample.len() == SAMPLE || (fault == Fault::ShorterTaken && sample.len() == 48), of_route(fault, route, time)) {
        (false, number @ 5..=7) if fault == Fault::RouteFirst => number,
        (false, _) => 3,
        (true, number) => number,
    };
    if refused == 0 {
        write(fault, route, time, sample);
    } else if fault == Fault::WrittenThoughRefused && refused == 7 {
        sample.fill(0);
    }
    refused
}

fn of_route(fault: Fault, route: &[u8], time: f32) -> u32 {
    match Right.of_route(route) {
        0 if fault == Fault::BelowZeroRefused && time < 0.0 => 6,
        0 if fault == Fault::EightLegs && route.len() > 9 * LEG => 5,
        7 if fault == Fault::JoinsNotLookedAt => 0,
        number => number,
    }
}

fn write(fault: Fault, route: &[u8], time: f32, sample: &mut [u8]) {
    let route = Right.route(route);
    let place = match Right.place(&route, time) {
        _ if fault == Fault::NoNumberAtTheStart && time.is_nan() => Place { leg: 0, at: 0.0, past: false },
        place if fault == Fault::PastAtTheStart && place.past => Place { at: 0.0, ..place },
        place if fault == Fault::TimeOfTheRoute && !place.past => Place { at: time, ..place },
        place if fault == Fault::EndOfTheLegBefore && place.at == 0.0 && place.leg > 0 => {
            let leg = place.leg - 1;
            Place { leg, at: route.legs[leg].duration(), past: false }
        }
        place => place,
    };
    let s = route.legs[place.leg].eval(place.at);
    let mut floats = [s.pos, s.vel, s.acc, s.jerk].concat();
    match fault {
        Fault::VelocityAfterAcceleration => floats = [s.pos, s.acc, s.vel, s.jerk].concat(),
        Fault::AxisByAxis => floats = (0..12).map(|at| floats[3 * (at % 4) + at / 4]).collect(),
        Fault::Cleaned => floats.iter_mut().filter(|x| !x.is_finite()).for_each(|x| *x = 0.0),
        Fault::JerkLeftOut => floats[9..].fill(0.0),
        _ => {}
    }
    let leg = place.leg as u32;
    let mut to = Put::from(sample, 0);
    to.word(match fault {
        Fault::LegFromOne => leg + 1,
        Fault::LegAsANumber => (leg as f32).to_bits(),
        _ => leg,
    });
    floats.into_iter().for_each(|x| to.word(canonical(x)));
}

counts! {
    pub struct Seen {
        pub samples: u64,
        /// By the leg flown, counted from 0.
        pub legs: [u64; MOST_LEGS],
        /// Past all ends; at the start of a leg but the first; at a time below 0, at none that is a number, at an infinite one.
        pub past: u64,
        pub at_start: u64,
        pub odd: [u64; 3],
        /// With a number that is not finite.
        pub wild: u64,
        /// By number: 3, 5, 6, 7.
        pub refused: [u64; 4],
    }
}

impl fmt::Display for Seen {
    fn fmt(&self, f: &mut fmt::Formatter<'_>) -> fmt::Result {
        let Seen { samples, legs, past, at_start, odd: [below, no_number, infinite], wild, refused } = self;
        write!(f, "{samples} samples, by the leg {legs:?}, {past} past the end, {at_start} at a leg's start; {below} below 0, {no_number} at no number, ")?;
        write!(f, "{infinite} at an infinity; {wild} with a number that is not finite; refused {refused:?} (3, 5, 6, 7)")
    }
}

/// A time: near an end of the run's route, within it, any other, any bits.
fn time(rng: &mut Rng, ends: &[f32]) -> f32 {
    let last = ends.last().copied().unwrap_or(1.0);
    match rng.below(8) {
        0 => rng.word(),
        1 => rng.special(),
        2 => -last * rng.part(),
        3 | 4 => {
            let end = rng.of(ends).unwrap_or(0.0);
            rng.near(end)
        }
        5 => rng.of(ends).unwrap_or(0.0),
        _ => last * rng.range(0.0, 1.1),
    }
}

/// One run: a route and what is done to it, and times on it; every byte after each call. What differs, in words.
fn run(face: Face, number: u64, seen: &mut Seen) -> Result<(), String> {
    let (mut rng, mut guide) = (Rng::new("samples", number), Guide::new(number, MIXED));
    let steady = Right.route(&guide.steady()).ends;
    for turn in 0..64 {
        let mut at = time(&mut rng, &steady);
        let route = guide.route(Call::RouteTick, at.abs());
        if rng.flag() && Right.of_route(&route) == 0 {
            at = time(&mut rng, &Right.route(&route).ends);
        }
        let length = if rng.below(32) == 0 { rng.of(&[0, 4, 40, 48, 51, 53, 56, 68]).unwrap_or(0) } else { SAMPLE };
        let mut right: Vec<u8> = (0..length).map(|_| rng.bits() as u8).collect();
        let mut found = right.clone();
        let numbers = [expected(Fault::None, &route, at, &mut right), face(&route, at, &mut found)];
        if numbers[0] != numbers[1] || right != found {
            return Err(format!(
                "run {number}, turn {turn}: a route of {} bytes at {at:?}, a sample of {length}: returns {}, expected {}; {found:02x?}, expected {right:02x?}",
                route.len(), numbers[1], numbers[0]
            ));
        }
        match numbers[0] {
            0 => seen.take(&route, at, &right),
            refused => seen.refused[if refused == 3 { 0 } else { refused as usize - 4 }] += 1,
        }
    }
    Ok(())
}

impl Seen {
    fn take(&mut self, route: &[u8], time: f32, sample: &[u8]) {
        let place = Right.place(&Right.route(route), time);
        self.samples += 1;
        self.legs[place.leg] += 1;
        self.past += u64::from(place.past);
        self.at_start += u64::from(place.leg > 0 && place.at == 0.0);
        let odd = [time < 0.0, time.is_nan(), time.is_infinite()];
        self.odd.iter_mut().zip(odd).for_each(|(count, is)| *count += u64::from(is));
        let floats = sample[4..].chunks_exact(4).map(|four| f32::from_le_bytes([four[0], four[1], four[2], four[3]]));
        self.wild += u64::from(floats.into_iter().any(|x| !x.is_finite()));
    }
}

/// So many runs of 64 calls each, until one differs.
pub fn compare(face: Face, runs: u64) -> Result<Seen, String> {
    let all = Mutex::new((Seen::NONE, None));
    threads::each(runs, |number| {
        let mut seen = Seen::NONE;
        let ran = run(face, number, &mut seen);
        let Ok(mut all) = all.lock() else { return true };
        all.0.add(&seen);
        if let Err(text) = ran {
            all.1 = Some(text);
        }
        all.1.is_some()
    });
    match all.into_inner() {
        Ok((seen, None)) => Ok(seen),
        Ok((_, Some(text))) => Err(text),
        Err(_) => Err("a run panicked".into()),
    }
}
