//! Every length from 0 to 400 of each buffer, all together, between guards: the number, and not a byte changed. And of a route from 0 to a
//! leg and more beyond the longest.

use super::bytes::{put, raw, ANSWER, IMAGE, LEG, MOST_LEGS, SETUP_FC, SETUP_PROFILE, TICK, TRAILER};
use super::lent::{Hands, Lent, Short, LONGEST};
use super::model::{self, Flight, Profile};
use super::pilot::Pilot;
use super::route::Source;
use super::{Call, Face};
use crate::{portion, threads};
use std::sync::{Mutex, PoisonError};

/// And of a route.
const LONGEST_ROUTE: usize = LEG * (MOST_LEGS + 1) + 2 * TRAILER;
/// Their legs: from none to one too many.
const COUNTS: usize = MOST_LEGS + 2;

/// Buffers of the longest length that begin with these bytes, and no route.
fn beginning(image: &[u8], input: &[u8]) -> Hands {
    let lent = |with: &[u8]| Short::holding(&[with, &vec![0x3c; LONGEST - with.len()]].concat());
    Hands { image: lent(image), input: lent(input), route: Lent::of(&[]), answer: lent(&[]) }
}

/// Those of a tick.
fn of_a_tick() -> Hands {
    let (mut pilot, mut image) = (Pilot::on_a_pass(Profile::LostRotor, 0), [0; IMAGE]);
    let flight = Flight::set_up(&pilot.set_up());
    flight.write(&mut image);
    beginning(&image, &pilot.next(&flight, &Source::Segment))
}

/// A call beside the model's, on the same bytes: the same number, the same bytes, and none beside them. Whether it was accepted.
fn alike(face: Face, call: Call, lent: &mut Hands, expected: &mut Hands) -> Result<bool, String> {
    let (number, returned) = (model::call(call, &mut expected.lend()), face(call, &mut lent.lend()));
    if returned != number || lent != expected {
        let lengths = lent.each().map(|(name, bytes, _)| format!("{name} {}", bytes.len()));
        return Err(format!("{call:?} with lengths {lengths:?} returns {returned}, expected {number}, or changes what it should not"));
    }
    Ok(number == 0)
}

/// The calls with an image of this length, at every length of the input and, where there is one, of the answer; how many.
fn with_image(face: Face, call: Call, image: usize, before: &Hands) -> Result<u64, String> {
    let none = matches!(call, Call::SetUp | Call::Exchange);
    let answers = if none { 0 } else { LONGEST };
    let (mut calls, mut lent, mut expected) = (0, before.clone(), before.clone());
    for input in 0..=LONGEST {
        for answer in (0..=answers).filter(|answer| none || portion::has(*answer, ANSWER, image + input + answer)) {
            for hands in [&mut lent, &mut expected] {
                (hands.image.len, hands.input.len, hands.answer.len) = (image, input, answer);
            }
            if alike(face, call, &mut lent, &mut expected)? {
                (lent, expected) = (before.clone(), before.clone());
            }
            calls += 1;
        }
    }
    Ok(calls)
}

/// Set-up at every pair of lengths: with a profile and with none, each with a filter and with none; how many calls.
pub fn setups(face: Face) -> Result<u64, String> {
    let good = beginning(&[], &Pilot::on_a_pass(Profile::Whole, 0).set_up());
    let with = |before: &Hands, at: usize, word: u32| {
        let mut other = before.clone();
        put(other.input.bytes_mut(), at, word);
        other
    };
    let (none, through) = (with(&good, SETUP_PROFILE, 2), with(&good, SETUP_FC, 0));
    let both = with(&none, SETUP_FC, 0);
    [good, none, through, both].iter().flat_map(|before| (0..=LONGEST).map(|image| with_image(face, Call::SetUp, image, before))).sum()
}

/// A tick at every three lengths, or their share, on a good image and on a broken one; how many calls.
pub fn ticks(face: Face) -> Result<u64, String> {
    let good = of_a_tick();
    let mut broken = good.clone();
    put(broken.image.bytes_mut(), 15, 2);
    let total = Mutex::new(Ok(0));
    threads::each(LONGEST as u64 + 1, |image| {
        let calls = [&good, &broken].map(|before| with_image(face, Call::Tick, image as usize, before)).into_iter().sum::<Result<u64, _>>();
        let mut total = total.lock().unwrap_or_else(PoisonError::into_inner);
        *total = total.clone().and_then(|sum| Ok(sum + calls?));
        total.is_err()
    });
    total.into_inner().unwrap_or_else(PoisonError::into_inner)
}

/// An exchange at every pair of lengths, on a good image and on a broken one; how many calls.
pub fn exchanges(face: Face) -> Result<u64, String> {
    let good = Hands { input: beginning(&[], &raw::<LEG>(&[1.0; LEG / 4])).input, ..of_a_tick() };
    let mut broken = good.clone();
    put(broken.image.bytes_mut(), 15, 2);
    [good, broken].iter().flat_map(|before| (0..=LONGEST).map(|image| with_image(face, Call::Exchange, image, before))).sum()
}

/// The calls of `routes`: counts, lengths, trailers, and lengths of the others with a good image and a broken one.
pub fn route_calls() -> u64 {
    COUNTS as u64 * (LONGEST_ROUTE as u64 + 1) * 2 * 16
}

/// A route tick at every length of a route of 0 to 33 legs, or their share: cut there, and with its trailer moved there. With an image that is good or broken,
/// and each of the others a byte short or not.
pub fn routes(face: Face) -> Result<u64, String> {
    let (good, mut calls) = (of_a_tick(), 0);
    for count in 0..COUNTS {
        let trailer =
            |bytes: &mut [u8], at: usize| [count, LEG * count].iter().enumerate().for_each(|(k, w)| put(&mut bytes[at..], k, *w as u32));
        // at rest, so that all legs meet; a duration each
        let mut whole = Lent::with_room(&vec![0; LEG * count], LONGEST_ROUTE - LEG * count);
        (0..count).for_each(|leg| put(whole.bytes_mut(), 19 * leg + 18, 1.0f32.to_bits()));
        trailer(whole.bytes_mut(), LEG * count);
        for len in (0..=LONGEST_ROUTE).filter(|len| portion::has(*len, LEG * count + TRAILER, count + len)) {
            for moved in [false, true] {
                let mut route = whole.clone();
                if let (Some(at), true) = (len.checked_sub(TRAILER), moved) {
                    trailer(route.bytes_mut(), at);
                }
                route.len = len;
                for way in 0..16 {
                    let short = |bit: usize| way >> bit & 1;
                    let mut lent = Hands { route: route.clone(), ..good.clone() };
                    put(lent.image.bytes_mut(), 15, 1 + short(3) as u32);
                    (lent.image.len, lent.input.len, lent.answer.len) = (IMAGE - short(0), TICK - short(1), ANSWER - short(2));
                    alike(face, Call::RouteTick, &mut lent.clone(), &mut lent)?;
                    calls += 1;
                }
            }
        }
    }
    Ok(calls)
}
