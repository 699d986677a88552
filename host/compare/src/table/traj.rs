//! 001: relay-traj.

use crate::generate::{Part, Rng};
use crate::routine::Routine;
use archives::traj;
use oracle::traj::{private, Quintic, RefGovernor, Segment3};

const POSITION: Part = Part::Number(50.0);
const VELOCITY: Part = Part::Number(10.0);
const ACCELERATION: Part = Part::Number(20.0);
const DURATION: Part = Part::Above(10.0);

/// c5 to c0 and t_end.
const QUINTIC: [Part; 7] = [Part::Number(1.0), Part::Number(2.0), Part::Number(4.0), ACCELERATION, VELOCITY, POSITION, Part::End(10.0)];

/// p0, v0, a0, pf, vf, af, t.
const LEG: [Part; 7] = [POSITION, VELOCITY, ACCELERATION, POSITION, VELOCITY, ACCELERATION, DURATION];

/// s, err_lo, err_hi, g_min.
const GOVERNOR: [Part; 4] = [Part::Above(20.0), Part::Above(2.0), Part::Above(4.0), Part::Above(1.2)];

fn with(first: &[Part], then: &[Part]) -> Vec<Part> {
    [first, then].concat()
}

pub fn routines() -> Vec<Routine> {
    [quintics(), segments(), governors()].into_iter().flatten().collect()
}

fn quintics() -> Vec<Routine> {
    vec![
        Routine::new("fin", &[POSITION, POSITION], |i| traj::fin(i.get(), i.get()), |i| private::fin(i.get(), i.get())),
        Routine::new(
            "Quintic::new",
            &LEG,
            |i| traj::quintic_new(i.get(), i.get(), i.get(), i.get(), i.get(), i.get(), i.get()),
            |i| Quintic::new(i.get(), i.get(), i.get(), i.get(), i.get(), i.get(), i.get()),
        )
        .near(shortest),
        Routine::new("Quintic::duration", &QUINTIC, |i| traj::quintic_duration(i.get()), |i| i.get::<Quintic>().duration()),
        Routine::new(
            "Quintic::eval",
            &with(&QUINTIC, &[Part::Number(12.0)]),
            |i| traj::quintic_eval(i.get(), i.get()),
            |i| i.get::<Quintic>().eval(i.get()),
        )
        .near(|rng, words| time_at_an_end(rng, words, 6)),
        Routine::new("Quintic::jerk_coeffs", &QUINTIC, |i| traj::quintic_jerk_coeffs(i.get()), |i| private::jerk_coeffs(i.get())),
        Routine::new("Quintic::peak_abs_jerk", &QUINTIC, |i| traj::quintic_peak_abs_jerk(i.get()), |i| i.get::<Quintic>().peak_abs_jerk()),
    ]
}

fn segments() -> Vec<Routine> {
    let three = [QUINTIC, QUINTIC, QUINTIC].concat();
    let at = with(&three, &[Part::Number(12.0)]);
    vec![
        Routine::new(
            "Segment3::new",
            &[
                Part::Vector(50.0),
                Part::Vector(10.0),
                Part::Vector(20.0),
                Part::Vector(50.0),
                Part::Vector(10.0),
                Part::Vector(20.0),
                DURATION,
            ],
            |i| traj::segment3_new(i.get(), i.get(), i.get(), i.get(), i.get(), i.get(), i.get()),
            |i| Segment3::new(i.get(), i.get(), i.get(), i.get(), i.get(), i.get(), i.get()),
        )
        .near(shortest),
        Routine::new(
            "Segment3::rest_to_rest",
            &[Part::Vector(50.0), Part::Vector(50.0), DURATION],
            |i| traj::segment3_rest_to_rest(i.get(), i.get(), i.get()),
            |i| Segment3::rest_to_rest(i.get(), i.get(), i.get()),
        )
        .near(shortest),
        Routine::new("Segment3::duration", &three, |i| traj::segment3_duration(i.get()), |i| i.get::<Segment3>().duration()),
        Routine::new("Segment3::eval", &at, |i| traj::segment3_eval(i.get(), i.get()), |i| i.get::<Segment3>().eval(i.get())).near(
            |rng, words| {
                let t_end = rng.of(&[6, 13, 20]).unwrap_or(6);
                time_at_an_end(rng, words, t_end);
            },
        ),
        Routine::new("Segment3::peak_abs_jerk", &three, |i| traj::segment3_peak_abs_jerk(i.get()), |i| i.get::<Segment3>().peak_abs_jerk()),
    ]
}

fn governors() -> Vec<Routine> {
    vec![
        Routine::new(
            "clamp_to",
            &[Part::Number(1.5), Part::Number(1.5)],
            |i| traj::clamp_to(i.get(), i.get()),
            |i| private::clamp_to(i.get(), i.get()),
        )
        .near(|rng, words| {
            words[1] = rng.near_one(&[0.0, 1.0, words[1]]);
            words[0] = rng.near_one(&[0.0, 1.0, words[1]]);
        }),
        Routine::new(
            "gate_factor",
            &[Part::Number(5.0), Part::Above(2.0), Part::Above(4.0), Part::Number(1.2)],
            |i| traj::gate_factor(i.get(), i.get(), i.get(), i.get()),
            |i| private::gate_factor(i.get(), i.get(), i.get(), i.get()),
        )
        .near(|rng, words| {
            let [mut err, mut lo, mut hi, mut g_min] = [words[0], words[1], words[2], words[3]];
            at_the_band(rng, &mut err, &mut lo, &mut hi, &mut g_min);
            words.copy_from_slice(&[err, lo, hi, g_min]);
        }),
        Routine::new(
            "RefGovernor::new",
            &GOVERNOR[1..],
            |i| traj::refgovernor_new(i.get(), i.get(), i.get()),
            |i| RefGovernor::new(i.get(), i.get(), i.get()),
        ),
        Routine::new(
            "RefGovernor::gate",
            &with(&GOVERNOR, &[Part::Number(5.0)]),
            |i| traj::refgovernor_gate(i.get(), i.get()),
            |i| i.get::<RefGovernor>().gate(i.get()),
        )
        .near(governor_at_the_band),
        Routine::new(
            "RefGovernor::advance",
            &with(&GOVERNOR, &[Part::Number(5.0), Part::Step]),
            |i| traj::refgovernor_advance(i.get(), i.get(), i.get()),
            |i| {
                let mut governor: RefGovernor = i.get();
                let time = governor.advance(i.get(), i.get());
                (governor, time)
            },
        )
        .near(governor_at_an_edge),
        Routine::new(
            "RefGovernor::advance, lent",
            &with(&GOVERNOR, &[Part::Number(5.0), Part::Step]),
            |i| {
                let mut governor: traj::RefGovernor = i.get();
                let time = traj::refgovernor_advance_lent(&mut governor, i.get(), i.get());
                (governor, time)
            },
            |i| {
                let mut governor: RefGovernor = i.get();
                let time = governor.advance(i.get(), i.get());
                (governor, time)
            },
        )
        .near(governor_at_an_edge),
        Routine::new("RefGovernor::time", &GOVERNOR, |i| traj::refgovernor_time(i.get()), |i| i.get::<RefGovernor>().time()),
        Routine::new(
            "RefGovernor::reset",
            &GOVERNOR,
            |i| traj::refgovernor_reset(i.get()),
            |i| {
                let mut governor: RefGovernor = i.get();
                governor.reset();
                governor
            },
        ),
    ]
}

/// A duration, the last word, near the shortest, or one whose fifth power leaves the range.
fn shortest(rng: &mut Rng, words: &mut [f32]) {
    if let Some(t) = words.last_mut() {
        *t = rng.near_one(&[1e-3, 1e-3, 1e-3, 1e-9, 5.0e7, 1.0e-9]);
    }
    // an end that the start coasts to, so that all cancels
    if rng.below(4) == 0 && words.len() == 7 {
        (words[3], words[4], words[5]) = (rng.near(words[0]), rng.near(words[1]), rng.near(words[2]));
    }
}

/// The last word at 0 or at the end of the axis whose length stands at `end`, or next to it.
fn time_at_an_end(rng: &mut Rng, words: &mut [f32], end: usize) {
    let t_end = words[end];
    if let Some(t) = words.last_mut() {
        *t = rng.near_one(&[0.0, t_end, 1e-44]);
    }
}

/// The error at an end of the band, the band of no width, the least gate at 0 or 1.
fn at_the_band(rng: &mut Rng, err: &mut f32, lo: &mut f32, hi: &mut f32, g_min: &mut f32) {
    match rng.below(4) {
        0 => *hi = rng.near(*lo),
        1 => (*lo, *hi) = (rng.near_one(&[0.0]), rng.near_one(&[0.0])),
        _ => *hi = *lo + rng.range(0.0, 2.0),
    }
    let at = rng.of(&[*lo, *hi]).unwrap_or(0.0);
    *err = rng.near(at);
    if rng.flag() {
        *err = *lo + rng.part() * (*hi - *lo);
    }
    if rng.flag() {
        *g_min = rng.near_one(&[0.0, 1.0]);
    }
}

/// A tick at the band's edges, from times that no constructor makes, and times at which a tick is lost.
fn governor_at_an_edge(rng: &mut Rng, words: &mut [f32]) {
    governor_at_the_band(rng, words);
    words[0] = rng.of(&[words[0], -0.0, 16384.0, 32768.0, f32::MAX, f32::INFINITY]).unwrap_or(0.0);
    words[5] = rng.of(&[words[5], 0.001, 0.0, -0.0, f32::MAX, f32::INFINITY, 1e-45]).unwrap_or(0.0);
}

fn governor_at_the_band(rng: &mut Rng, words: &mut [f32]) {
    let [mut lo, mut hi, mut g_min, mut err] = [words[1], words[2], words[3], words[4]];
    at_the_band(rng, &mut err, &mut lo, &mut hi, &mut g_min);
    words[1..5].copy_from_slice(&[lo, hi, g_min, err]);
}
