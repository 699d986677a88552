//! Routes of several legs.

use super::flights::flown;
use super::{route_of, trailer, Leg, Made, Section, SetUp, Tick, REQUESTS};
use crate::conform::Level;
use compare::generate::Rng;

pub const SECTIONS: &[Made] = &[
    Made { file: "22-routes", name: "routes of 1, 8, 9 and 32 legs", words: &["Routes of up to 8 keep their bytes and fly the same; the earlier release refuses longer ones with 5; 5 is for more than 32."], place: REQUESTS, level: Level::Rule, lines: counts },
    Made { file: "23-leg-ends", name: "leg ends at the time itself", words: &["the first leg whose end, a running f32 sum of mended durations, is above the governor's time; past all ends the last one at its duration."], place: REQUESTS, level: Level::Rule, lines: ends },
    Made { file: "24-joins", name: "legs that meet, and that do not", words: &["Each leg starts where the one before it ended, as numbers."], place: REQUESTS, level: Level::Rule, lines: joins },
];

/// Two states that legs go between, each with an acceleration of its own.
const HERE: [f32; 9] = [0.0, 1.0, -2.0, 0.5, 0.0, 0.25, 0.5, -0.5, 0.0];
const THERE: [f32; 9] = [3.0, 2.0, -1.0, 0.0, -0.5, 0.0, 0.25, 0.5, -1.0];

pub fn there(t: f32) -> Leg {
    Leg::between(HERE, THERE, t)
}

pub fn back(t: f32) -> Leg {
    Leg::between(THERE, HERE, t)
}

/// There and back so often, and there once more where the count is odd.
pub fn loops(legs: usize, t: f32, u: f32) -> String {
    let (both, one) = ([there(t).bytes(), back(u).bytes()].concat(), there(t).bytes());
    let mut route = if legs > 1 { format!("{}*{}+", super::plain(&both), legs / 2) } else { String::new() };
    if legs % 2 == 1 {
        route += &format!("{}+", super::plain(&one));
    }
    route + &trailer(legs)
}

fn counts(s: &mut Section) {
    for profile in [0, 1] {
        let mut rng = Rng::new("kit routes", profile.into());
        s.set_up(&SetUp::new(profile).with(9, &[1.0, 0.8, 1.5, 0.2, 0.45]));
        for legs in [1, 2, 7, 8, 9, 10, 31, 32, 33, 34] {
            s.exchange(&Leg::rest(3.0));
            for _ in 0..4 {
                s.route(&flown(&mut rng).with(7, &[0.0]).with(10, &[0.4]), &loops(legs, 0.3, 0.2));
            }
            // plain ticks and route ticks in any order: the clock runs on over both
            s.tick(&flown(&mut rng));
            s.route(&flown(&mut rng), &loops(legs, 0.3, 0.2));
            s.look();
        }
        for count in [0u32, 33, 64, 1 << 30, u32::MAX] {
            let back = super::plain(&[count.to_le_bytes(), count.wrapping_mul(76).to_le_bytes()].concat());
            s.route(&flown(&mut rng), &back);
        }
    }
}

fn ends(s: &mut Section) {
    s.set_up(&SetUp::new(0).with(9, &[1.0, 0.8, 1.5, 0.2, 0.45]));
    // from an exchange on the time is the next dt
    let at = |s: &mut Section, time: f32, route: &str| {
        s.exchange(&there(2.0));
        s.route(&Tick::still().with(10, &[time]), route);
    };
    // 32 legs whose ends are other numbers where they are summed in a wider form
    let (t, u) = (0.1f32, 0.3f32);
    let route = loops(32, t, u);
    let (mut end, mut wide) = (0.0f32, 0.0f64);
    for leg in 0..32 {
        let duration = if leg % 2 == 0 { t } else { u };
        (end, wide) = (end + duration, wide + f64::from(duration));
        for time in [end, f32::from_bits(end.to_bits() - 1), f32::from_bits(end.to_bits() + 1), wide as f32] {
            at(s, time, &route);
        }
    }
    // past all ends, and at infinity
    for time in [7.0, 1e10, f32::MAX] {
        at(s, time, &route);
        s.route(&Tick::still().with(10, &[f32::MAX]), &route);
        s.route(&Tick::still(), &route_of(&[there(1.0)], 1));
    }
    // durations that are mended: metres in a millisecond, where a margin hangs on its last places
    s.at(Level::Bits, |s| {
        for odd in [f32::NAN, f32::INFINITY, f32::NEG_INFINITY, 0.0, -2.0, 1e-3, 0.0010000002, 1e-45, 5e-4] {
            let mended = route_of(&[there(odd), back(odd), there(1.0)], 1);
            for time in [5e-4, 1e-3, 0.0010000002, 0.0015, 2e-3, 0.0020000003, 0.5, 1.002, 3.0] {
                at(s, time, &mended);
            }
        }
    });
    // lost in the sum, and that sum to infinity
    let lost = route_of(&[there(16_777_216.0), back(0.5), there(1.0), back(4.0)], 1);
    let infinite = route_of(&[there(3e38), back(3e38), there(1.0)], 1);
    for time in [16_777_215.0, 16_777_216.0, 16_777_218.0, 16_777_220.0, 3e38, f32::MAX] {
        at(s, time, &lost);
        at(s, time, &infinite);
    }
    s.look();
}

fn joins(s: &mut Section) {
    let (nan, inf) = (f32::NAN, f32::INFINITY);
    s.set_up(&SetUp::new(0).with(9, &[1.0, 0.8, 1.5, 0.2, 0.45]));
    // each place of a join, at the first and at the second
    for place in 0..9 {
        for (end, start) in [
            (0.0, -0.0),
            (-0.0, 0.0),
            (1.0, 1.0000001),
            (nan, nan),
            (inf, inf),
            (inf, -inf),
            (-inf, -inf),
            (nan, 0.0),
            (0.0, inf),
            (1e-45, 0.0),
            (1e-45, 1e-45),
        ] {
            for join in [0, 1] {
                let mut legs = [there(1.0), back(1.0), there(1.0)];
                legs[join].0[9 + place] = end;
                legs[join + 1].0[place] = start;
                s.route(&Tick::still().with(10, &[0.7]), &route_of(&legs, 1));
            }
        }
    }
    // the last of 32
    for legs in [16, 32] {
        let mut all: Vec<Leg> = (0..legs).map(|k| if k % 2 == 0 { there(0.5) } else { back(0.5) }).collect();
        all[legs - 1].0[5] += 1.0;
        s.route(&Tick::still(), &route_of(&all, 1));
        all[legs - 1].0[5] -= 1.0;
        s.route(&Tick::still(), &route_of(&all, 1));
    }
    s.look();
}
