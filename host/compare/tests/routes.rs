//! Ticks on routes, mixed with plain ones and with exchanges of the segment: the archive against document 02's sentence with the Rust's own segments, byte for byte, and the
//! third demand by looking back.

use compare::joint::bytes::{float, put, raw, word, ANSWER, IMAGE, LEG, MOST_LEGS, SETUP, SETUP_PROFILE, TICK};
use compare::joint::guide::MIXED;
use compare::joint::model::Right;
use compare::joint::runs::{self, caught, Watch, GATE_ON_ROUTES};
use compare::joint::wrong::{self, WRONG_ERROR, WRONG_EXCHANGE, WRONG_ON_ROUTES, WRONG_PROFILE};
use compare::joint::{archive, lengths};
use compare::portion;
use std::time::Instant;

#[test]
fn every_tick_on_a_route_is_the_rust_s_and_the_look_back_s() {
    let (start, ticks) = (Instant::now(), portion::of(GATE_ON_ROUTES));
    let (seen, parted) = runs::compare(&archive, ticks, Watch::All, MIXED, |_| {});
    let routes = &seen.routes;
    println!("{seen}\n{:.1} s", start.elapsed().as_secs_f32());
    if let Some(parted) = parted {
        panic!("{parted}");
    }
    assert!(routes.accepted() >= ticks / 2 && seen.looked_back >= ticks / 2);
    let ([many, some], part) = ([1000, 100].map(portion::least), portion::one_in(20));
    // a run that never goes where the errors are shows nothing
    for (what, counts) in [
        ("counts", &routes.counts[..]),
        ("legs", &routes.legs),
        ("ends", &[routes.past, routes.at_end, routes.below_end, routes.above_end]),
        ("durations", [routes.mended, routes.lost, routes.infinite].as_flattened()),
        ("joins", &[routes.zeros, routes.infinities]),
        ("refusals 4 to 7", &routes.refused[4..]),
        ("apart", &routes.apart),
        ("switches", &[routes.switches]),
        ("exchanges", &[seen.exchanged, seen.infinite_peaks]),
    ] {
        assert!(counts.iter().all(|count| *count > many), "{what}: {counts:?}");
    }
    assert!(seen.refused_exchanges.iter().all(|count| *count > some), "{:?}", seen.refused_exchanges);
    assert!(seen.turning.as_flattened().iter().all(|count| *count > some), "{:?}", seen.turning);
    for (passes, band) in seen.passes().into_iter().zip(seen.band) {
        assert!(band.iter().all(|n| n * part >= passes), "{band:?} of {passes}");
    }
    assert!(seen.changes > many && seen.no_axis > some && seen.any_heading > many);
}

#[test]
fn what_looks_right_but_is_wrong_is_caught() {
    let all = [WRONG_ON_ROUTES, WRONG_ERROR, WRONG_PROFILE, WRONG_EXCHANGE].concat();
    let ticks = portion::of(GATE_ON_ROUTES);
    let missed: Vec<_> = all.into_iter().filter(|version| !caught(*version, ticks, Watch::All, MIXED)).collect();
    assert!(missed.is_empty(), "not caught within {ticks} ticks: {missed:?}");
}

/// The look-back knows nothing of the model nor of routes, and catches what the third demand is about.
#[test]
fn looking_back_alone_catches_what_is_about_the_flag() {
    for version in [
        wrong::ReleasedInTheBand::VERSION,
        wrong::Constant::VERSION,
        wrong::Untouched::VERSION,
        wrong::ExchangeResetsShield::VERSION,
        wrong::ExchangeReleases::VERSION,
    ] {
        assert!(caught(version, portion::of(GATE_ON_ROUTES), Watch::LookBack, MIXED), "{version:?}");
    }
}

/// What the wrong ones are made from is right.
#[test]
fn with_no_fault_nothing_differs() {
    assert!(!caught(Right::VERSION, portion::of(GATE_ON_ROUTES / 10), Watch::All, MIXED));
}

#[test]
fn every_length_of_a_route() {
    let calls = lengths::routes(&archive).unwrap_or_else(|text| panic!("{text}"));
    println!("{calls} calls");
    assert!(calls >= portion::of(lengths::route_calls()));
    // and the sweep can fail
    assert!(lengths::routes(&wrong::AnyLength::VERSION.call).is_err());
}

// Some lines of document 02 by hand, through the archive; the model has no part in them.

const WORDS: usize = LEG / 4;

/// Legs east and back north, each from where the last one ends, with speeds and accelerations at the joins.
fn legs(durations: &[f32]) -> Vec<[f32; WORDS]> {
    let mut from = [0.0, 0.0, -4.0, 0.0, 0.0, 0.0, 0.0, 0.0, 0.0];
    let leg = |(k, t): (usize, &f32)| {
        let k = k as f32;
        let to = [1.0 - k, 2.0 + k, -4.0 - k, 0.25, -0.5, 0.125 * k, 0.5, 0.25 * k, -0.25];
        let words = [from.as_slice(), &to, &[*t]].concat();
        from = to;
        words.try_into().expect("19 words")
    };
    durations.iter().enumerate().map(leg).collect()
}

fn bytes(legs: &[[f32; WORDS]]) -> Vec<u8> {
    let trailer = [legs.len() as u32, LEG as u32 * legs.len() as u32];
    legs.iter().flatten().map(|x| x.to_bits()).chain(trailer).flat_map(u32::to_le_bytes).collect()
}

/// Gains and set as in flight, thresholds that no margin reaches, and this segment: the fallback flies, and its command shows the
/// jerk, which no join takes over.
fn set_up(segment: &[f32; WORDS]) -> [u8; SETUP] {
    let gains = [0.6, 0.6, 0.15, 0.12, 0.12, 0.35, 0.0217, 0.0217, 0.04, 1.0, 1.0, 1.75, 5.0, 9.0, 1.0, 3.0, 0.25];
    let rate = [[40.0, 12.0, 60.0, 0.0]; 3].concat();
    raw(&[gains.as_slice(), segment, &rate, &[80.0, 1000.0]].concat())
}

/// Level and on track, a step that brings a fresh clock to this time.
fn step(time: f32) -> [u8; TICK] {
    raw(&[0.5, -0.25, 0.125, 1.0, 0.0, 0.0, 0.0, 0.0, 0.5, 0.25, time, 1.0, -1.0, 0.5, 1.0, 1.0, 1.0])
}

/// A fresh image's first tick, on a route where one is given: command, flag, psi and margin; and the time.
fn first(profile: u32, segment: &[f32; WORDS], route: Option<&[u8]>, time: f32) -> ([u32; 6], f32) {
    let (mut image, mut answer, mut input) = ([0; IMAGE], [0; ANSWER], set_up(segment));
    put(&mut input, SETUP_PROFILE, profile);
    assert_eq!(archives::setup(&mut image, &input), 0);
    let segment = image[4 * 20..4 * 41].to_vec();
    let number = match route {
        Some(route) => archives::route_tick(&mut image, &step(time), route, &mut answer),
        None => archives::tick(&mut image, &step(time), &mut answer),
    };
    assert_eq!((number, &image[4 * 20..4 * 41]), (0, &segment[..]));
    ([3, 4, 5, 6, 8, 9].map(|at| word(&answer, at)), float(&answer, 7))
}

/// On a route the tick is that of the leg flown, as a segment of its own at the time less the end before it; the image keeps its segment and
/// the route's time.
#[test]
fn the_leg_flown_by_hand() {
    let other = legs(&[9.0])[0];
    let mended = [f32::NAN, 2.0, 4.0];
    let lost = [16777216.0, 0.5, 1.0, 4.0];
    let huge = [3e38, 3e38, 1.0];
    // of 32 legs: all alike; all but the first and the last lost; infinite ends from the second on
    let many = [0.5; 32];
    let mut many_lost = [0.5; 32];
    (many_lost[0], many_lost[31]) = (16777216.0, 4.0);
    let many_huge = [3e38; 32];
    let below = |x: f32| x.next_down();
    for (durations, time, leg, at) in [
        (&[1.0, 2.0, 4.0][..], 0.5, 0, 0.5),
        (&[1.0, 2.0, 4.0], below(1.0), 0, below(1.0)),
        (&[1.0, 2.0, 4.0], 1.0, 1, 0.0),
        (&[1.0, 2.0, 4.0], 2.5, 1, 1.5),
        (&[1.0, 2.0, 4.0], 3.0, 2, 0.0),
        (&[1.0, 2.0, 4.0], 7.0, 2, 4.0),
        (&[1.0, 2.0, 4.0], 1e30, 2, 4.0),
        (&mended, below(1e-3), 0, below(1e-3)),
        (&mended, 1e-3, 1, 0.0),
        (&lost, below(16777216.0), 0, below(16777216.0)),
        (&lost, 16777216.0, 3, 0.0),
        (&lost, 16777218.0, 3, 2.0),
        (&lost, 16777220.0, 3, 4.0),
        (&huge, below(3e38), 0, below(3e38)),
        (&huge, 3e38, 1, 0.0),
        (&huge, f32::MAX, 1, f32::MAX - 3e38),
        (&many, 4.0, 8, 0.0),
        (&many, 4.25, 8, 0.25),
        (&many, 8.25, 16, 0.25),
        (&many, 15.75, 31, 0.25),
        (&many, below(16.0), 31, below(16.0) - 15.5),
        (&many, 16.0, 31, 0.5),
        (&many_lost, below(16777216.0), 0, below(16777216.0)),
        (&many_lost, 16777216.0, 31, 0.0),
        (&many_lost, 16777218.0, 31, 2.0),
        (&many_lost, 16777220.0, 31, 4.0),
        (&many_huge, below(3e38), 0, below(3e38)),
        (&many_huge, f32::MAX, 1, f32::MAX - 3e38),
    ] {
        let legs = legs(durations);
        let (said, clock) = first(0, &other, Some(&bytes(&legs)), time);
        assert_eq!((said, clock), (first(0, &legs[leg], None, at).0, time), "{durations:?} at {time}");
        if let (1.0, Some(before)) = (durations[0], leg.checked_sub(1)) {
            assert!(at > 0.0 || said != first(0, &legs[before], None, durations[before]).0, "{durations:?} at {time}");
        }
        // and with a rotor lost, by its own rules
        let (lost, clock) = first(1, &other, Some(&bytes(&legs)), time);
        assert_eq!((lost, clock), (first(1, &legs[leg], None, at).0, time), "{durations:?} at {time}");
        assert_ne!(lost, said);
    }
}

/// "6 a route below 8 bytes; 5 count 0 or above 8; 6 distance back not 76 times the count, or length not 8 more; 7 legs don't meet." And
/// "5 now means 0 or above 32".
#[test]
fn refusals_by_hand() {
    let mut image = [0; IMAGE];
    assert_eq!(archives::setup(&mut image, &set_up(&legs(&[1.0])[0])), 0);
    let number = |image: &[u8], input: usize, route: &[u8], answer: usize| {
        let (mut lent, mut out) = (image.to_vec(), vec![0xee; answer]);
        let number = archives::route_tick(&mut lent, &step(1.0)[..input], route, &mut out);
        assert!(number == 0 || (lent == image && out == vec![0xee; answer]));
        number
    };
    let of = |route: &[u8]| number(&image, TICK, route, ANSWER);
    let trailer = |count: u32, back: u32| [count.to_le_bytes(), back.to_le_bytes()].concat();
    let three = bytes(&legs(&[1.0, 2.0, 4.0]));
    let with = |count: u32, back: u32| [&three[..three.len() - 8], &trailer(count, back)].concat();
    assert_eq!(of(&three), 0);
    (0..8).for_each(|n| assert_eq!(of(&vec![0xff; n]), 6));
    for (count, back, said) in
        [(0, 0, 5), (0, 1, 5), (33, 2508, 5), (1 << 30, 0, 5), (u32::MAX, 0, 5), (1, 76, 6), (1, 0, 6), (9, 684, 6), (32, 2432, 6)]
    {
        assert_eq!(of(&trailer(count, back)), said, "{count}, {back}");
    }
    for (count, back, said) in
        [(3, 228, 0), (3, 236, 6), (3, 0, 6), (2, 152, 6), (2, 228, 6), (4, 304, 6), (0, 228, 5), (9, 228, 6), (33, 228, 5)]
    {
        assert_eq!(of(&with(count, back)), said, "{count}, {back}");
    }
    for (count, said) in [(8, 0), (9, 0), (31, 0), (32, 0), (33, 5)] {
        assert_eq!(of(&bytes(&legs(&vec![1.0; count]))), said, "{count} legs");
    }
    assert_eq!(of(&[&[0; 4], &three[..]].concat()), 6);
    // what a tick is refused for goes first
    assert_eq!(number(&image[1..], 0, &[], 0), 1);
    assert_eq!(number(&image, TICK - 1, &[], 0), 2);
    assert_eq!(number(&image, TICK, &[], ANSWER - 1), 3);
    put(&mut image, 15, 2);
    assert_eq!(number(&image, TICK, &[], ANSWER), 4);
}

/// Each of the nine places of each join, as numbers and as the words stand.
#[test]
fn joins_by_hand() {
    let fresh = set_up(&legs(&[1.0])[0]);
    let of = |legs: &[[f32; WORDS]]| {
        let (mut image, mut answer) = ([0; IMAGE], [0; ANSWER]);
        archives::setup(&mut image, &fresh);
        archives::route_tick(&mut image, &step(1.0), &bytes(legs), &mut answer)
    };
    let (nan, infinity) = (f32::NAN, f32::INFINITY);
    for join in 0..2 {
        for place in 0..9 {
            let with = |a: f32, b: f32| {
                let mut legs = legs(&[1.0, 2.0, 4.0]);
                (legs[join][9 + place], legs[join + 1][place]) = (a, b);
                of(&legs)
            };
            for (a, b) in [(0.0, -0.0), (-0.0, 0.0), (infinity, infinity), (-infinity, -infinity), (1e-45, 1e-45), (2.0, 2.0)] {
                assert_eq!((with(a, b), with(b, a)), (0, 0), "{a}, {b} at {place}");
            }
            for (a, b) in
                [(nan, nan), (nan, 0.0), (infinity, -infinity), (infinity, f32::MAX), (1e-45, 0.0), (2.0, -2.0), (2.0, 2.0f32.next_up())]
            {
                assert_eq!((with(a, b), with(b, a)), (7, 7), "{a}, {b} at {place}");
            }
        }
    }
    // nothing meets the first start nor the last end, and no duration is compared
    let mut open = legs(&[nan, -1.0, infinity]);
    open[0][..9].fill(nan);
    open[2][9..18].fill(nan);
    assert_eq!(of(&open), 0);
}

/// And of the longest route too, which is looked at word by word first.
#[test]
fn joins_of_the_longest_route() {
    let fresh = set_up(&legs(&[1.0])[0]);
    let of = |legs: &[[f32; WORDS]]| {
        let (mut image, mut answer) = ([0; IMAGE], [0; ANSWER]);
        archives::setup(&mut image, &fresh);
        archives::route_tick(&mut image, &step(1.0), &bytes(legs), &mut answer)
    };
    let (nan, infinity) = (f32::NAN, f32::INFINITY);
    let patterns = [0x7f80_0001, 0x7fff_ffff, 0xff80_0001, 0xffff_ffff].map(f32::from_bits);
    let joins = [3, MOST_LEGS].into_iter().flat_map(|count| (1..count).map(move |join| (count, join - 1)));
    for (count, join) in joins {
        for place in 0..9 {
            let with = |a: f32, b: f32| {
                let mut legs = legs(&vec![1.0; count]);
                (legs[join][9 + place], legs[join + 1][place]) = (a, b);
                of(&legs)
            };
            for (a, b) in [(0.0, -0.0), (-0.0, 0.0), (infinity, infinity), (-infinity, -infinity), (1e-45, 1e-45), (2.0, 2.0)] {
                assert_eq!((with(a, b), with(b, a)), (0, 0), "{a}, {b} at {place}");
            }
            for (a, b) in
                [(nan, nan), (nan, 0.0), (infinity, -infinity), (infinity, f32::MAX), (1e-45, 0.0), (2.0, -2.0), (2.0, 2.0f32.next_up())]
            {
                assert_eq!((with(a, b), with(b, a)), (7, 7), "{a}, {b} at {place}");
            }
            for pattern in patterns {
                assert_eq!(with(pattern, pattern), 7, "{:08x} at {place}", pattern.to_bits());
            }
        }
    }
}
