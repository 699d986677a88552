//! Where the aircraft should be.

use super::refused::{any_lengths, pairs, Ailment, Lent, OF_A_ROUTE};
use super::routes::{back, loops, there};
use super::{plain, route_of, Leg, Made, Section, BEYOND};
use crate::conform::{word_of, Level};
use compare::generate::Rng;

pub const SECTIONS: &[Made] = &[
    Made { file: "42-samples", name: "where the aircraft should be, on every leg", words: &["of a route at a time, the leg flown, counted from 0, and position, velocity, acceleration and jerk there: 13 words. They are relay-traj's `eval` of that leg at its own time.", "the first leg whose end, a running f32 sum of mended durations, is above the governor's time; past all ends the last one at its duration."], place: BEYOND, level: Level::Bits, lines: legs },
    Made { file: "43-sample-times", name: "where it should be, at any bits of a time and of a leg", words: &["Every bit of the time is taken as a route tick takes it."], place: BEYOND, level: Level::Bits, lines: any_bits },
    Made { file: "44-sample-refused", name: "every refusal of a sample, and every pair", words: &["3 for the sample's length, then the route's 6, 5, 6, 7."], place: BEYOND, level: Level::Bytes, lines: refused },
];

fn sample(s: &mut Section, route: &str, time: f32) {
    s.ask(format!("sample {route} {}", plain(&time.to_bits().to_le_bytes())));
}

/// At a time above 0 itself, and a unit below and above it.
fn about(s: &mut Section, route: &str, time: f32) {
    for time in [time, f32::from_bits(time.to_bits() - 1), f32::from_bits(time.to_bits() + 1)] {
        sample(s, route, time);
    }
}

fn legs(s: &mut Section) {
    for legs in [1, 2, 8, 9, 32] {
        let route = loops(legs, 0.1, 0.3);
        sample(s, &route, 0.0);
        let (mut end, mut wide) = (0.0f32, 0.0f64);
        for leg in 0..legs {
            let (start, duration) = (end, if leg % 2 == 0 { 0.1f32 } else { 0.3 });
            (end, wide) = (end + duration, wide + f64::from(duration));
            // of the long ones the middle is as the others are
            if legs == 32 || leg < 1 || leg + 2 >= legs {
                sample(s, &route, start + 0.4 * duration);
                about(s, &route, end);
            }
            // other numbers where they are summed in a wider form
            if wide as f32 != end {
                sample(s, &route, wide as f32);
            }
        }
        [1.5 * end, 1e10, f32::MAX].into_iter().for_each(|time| sample(s, &route, time));
    }
    [33, 34].into_iter().for_each(|legs| sample(s, &loops(legs, 0.1, 0.3), 0.2));
    for odd in [f32::NAN, f32::INFINITY, f32::NEG_INFINITY, 0.0, -2.0, 1e-3, 0.0010000002, 1e-45, 5e-4] {
        let mended = route_of(&[there(odd), back(odd), there(1.0)], 1);
        for time in [0.0, 5e-4, 1e-3, 0.0010000002, 0.0015, 2e-3, 0.5, 1.002, 3.0] {
            sample(s, &mended, time);
        }
    }
    // lost in the sum, and that sum to infinity
    let lost = route_of(&[there(16_777_216.0), back(0.5), there(1.0), back(4.0)], 1);
    let infinite = route_of(&[there(3e38), back(3e38), there(1.0)], 1);
    for time in [16_777_215.0, 16_777_216.0, 16_777_218.0, 16_777_220.0, 3e38, f32::MAX, f32::INFINITY] {
        sample(s, &lost, time);
        sample(s, &infinite, time);
    }
}

fn any_bits(s: &mut Section) {
    let (nan, inf, max) = (f32::NAN, f32::INFINITY, f32::MAX);
    let no_numbers = [0x7f80_0001, 0xff80_0001, 0x7fff_ffff, u32::MAX, 0xffc0_0000].map(f32::from_bits);
    let odd = [0.0, -0.0, 1e-45, -1e-45, f32::MIN_POSITIVE, -0.05, -0.1, -1.0, -max, -inf, nan, inf, max];
    for legs in [1, 2, 8, 9, 32] {
        odd.into_iter().chain(no_numbers).for_each(|time| sample(s, &loops(legs, 0.1, 0.3), time));
    }
    // each place of a leg
    for place in 0..19 {
        for odd in [nan, inf, -inf, max, -0.0, 1e-45] {
            let mut leg = there(0.5);
            leg.0[place] = odd;
            let route = route_of(&[leg], 1);
            // and at the end that it is of
            [0.2, if place < 9 { 0.0 } else { 1.0 }].into_iter().for_each(|time| sample(s, &route, time));
        }
    }
    // so far that places and velocities overflow; infinities that meet
    let far = Leg::between([0.0, 1.0, -2.0, 1.0, -1.0, 0.5, 10.0, -10.0, 0.5], [0.0; 9], 3e38);
    let far = route_of(&[far], 1);
    [1e18, 1e19, 1e20, 1e37, 1e38, 3e38, nan, inf].into_iter().for_each(|time| sample(s, &far, time));
    let (mut into, mut out) = (there(0.5), back(0.5));
    into.0[9..12].fill(inf);
    out.0[..3].fill(inf);
    let met = route_of(&[into, out], 1);
    [-inf, 0.0, 0.3, 0.5, 0.7, nan].into_iter().for_each(|time| sample(s, &met, time));
    let mut rng = Rng::new("kit samples", 0);
    for number in 0..60 {
        let leg = Leg([(); 19].map(|()| if number % 3 == 0 { rng.special() } else { rng.word() }));
        let time = if number % 2 == 0 { rng.word() } else { rng.range(0.0, 2.0) };
        sample(s, &route_of(&[leg], 1), time);
    }
    // legs that do not meet, in each place
    for place in 0..9 {
        for (end, start) in [(1.0, 1.0000001), (nan, nan), (-0.0, 0.0)] {
            let mut legs = [there(1.0), back(1.0)];
            (legs[0].0[9 + place], legs[1].0[place]) = (end, start);
            sample(s, &route_of(&legs, 1), 0.7);
        }
    }
}

fn refused(s: &mut Section) {
    let time = plain(&1.5f32.to_bits().to_le_bytes());
    let legs = [there(1.0), back(2.0)];
    let fresh = Lent {
        route: legs.iter().flat_map(Leg::bytes).chain([2, 0, 0, 0, 152, 0, 0, 0]).collect(),
        room: vec![0xa5; 52],
        ..Lent::default()
    };
    let of_the_sample: [Ailment; 3] = [|lent| lent.room.truncate(51), |lent| lent.room.push(0xa5), |lent| lent.room.truncate(48)];
    let ailments: Vec<Ailment> = of_the_sample.into_iter().chain(OF_A_ROUTE).collect();
    for pair in pairs(&ailments) {
        let lent = fresh.ailing(&pair);
        s.ask(format!("sample {} {time} {}", word_of(&lent.route), word_of(&lent.room)));
    }
    let rest = route_of(&[Leg::rest(1.0)], 1);
    for length in (0..=60).chain([64, 68, 76, 104, 208, 4096]) {
        s.ask(format!("sample {rest} {time} {}", word_of(&vec![0xa5; length])));
    }
    for route in any_lengths() {
        s.ask(format!("sample {route} {time} a5*52"));
    }
}
