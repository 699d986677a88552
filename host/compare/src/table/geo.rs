//! 000: relay-geo.

use crate::generate::{Part, Rng};
use crate::numbers::{EARLIER_LIMIT, LIMIT};
use crate::routine::Routine;
use crate::words::In;
use archives::geo;
use oracle::geo::{private, GeoAtt, GeoGains, RecoverableSet, SimplexShield};

/// An acceleration, a body rate, a jerk: m/s², rad/s, m/s³.
const ACCELERATION: Part = Part::Vector(20.0);
const RATE: Part = Part::Vector(10.0);
const JERK: Part = Part::Vector(60.0);

/// k_r, k_omega, j.
const GAINS: [Part; 3] = [Part::Gains(2.0), Part::Gains(1.0), Part::Gains(0.1)];

/// k_r, lambda_j, psi_max.
const SET: [Part; 3] = [Part::Above(2.0), Part::Above(0.1), Part::Above(2.0)];

/// The set, the flag, enter, exit.
const SHIELD: [Part; 6] = [Part::Above(2.0), Part::Above(0.1), Part::Above(2.0), Part::Flag, Part::Above(1.0), Part::Above(2.0)];

fn with(first: &[Part], then: &[Part]) -> Vec<Part> {
    [first, then].concat()
}

fn controller(i: &mut In) -> GeoAtt {
    GeoAtt::new(i.get::<GeoGains>())
}

pub fn routines() -> Vec<Routine> {
    [vectors(), attitudes(), controllers(), sets(), shields()].into_iter().flatten().collect()
}

fn vectors() -> Vec<Routine> {
    vec![
        Routine::new("GRAVITY_NED", &[], |_| geo::gravity_ned(), |_| oracle::geo::GRAVITY_NED),
        Routine::new("cross", &[RATE, RATE], |i| geo::cross(i.get(), i.get()), |i| private::cross(i.get(), i.get())),
        Routine::new("dot", &[RATE, RATE], |i| geo::dot(i.get(), i.get()), |i| private::dot(i.get(), i.get())),
        Routine::new("norm", &[RATE], |i| geo::norm(i.get()), |i| private::norm(i.get())).near(norm_at_the_least),
        Routine::new("normalize", &[RATE], |i| geo::normalize(i.get()), |i| private::normalize(i.get())).near(norm_at_the_least),
        Routine::new("identity3", &[], |_| geo::identity3(), |_| oracle::geo::identity3()),
        Routine::new("transpose3", &[Part::Rotation], |i| geo::transpose3(i.get()), |i| private::transpose3(i.get())),
        Routine::new(
            "matmul3",
            &[Part::Rotation, Part::Rotation],
            |i| geo::matmul3(i.get(), i.get()),
            |i| private::matmul3(i.get(), i.get()),
        )
        .near(zeros),
        Routine::new("vee", &[Part::Rotation], |i| geo::vee(i.get()), |i| private::vee(i.get())),
        Routine::new("sanitise3", &[RATE], |i| geo::sanitise3(i.get()), |i| private::sanitise3(i.get())),
    ]
}

fn attitudes() -> Vec<Routine> {
    vec![
        Routine::new("quat_to_rotmat", &[Part::Quaternion], |i| geo::quat_to_rotmat(i.get()), |i| oracle::geo::quat_to_rotmat(i.get())),
        Routine::new(
            "desired_attitude",
            &[Part::Axis, Part::Angle],
            |i| geo::desired_attitude(i.get(), i.get()),
            |i| oracle::geo::desired_attitude(i.get(), i.get()),
        )
        .near(axis_along_the_heading),
        Routine::new("thrust_axis_ned", &[ACCELERATION], |i| geo::thrust_axis_ned(i.get()), |i| oracle::geo::thrust_axis_ned(i.get()))
            .near(free_fall),
        // the Rust has no name for it; `desired_rate` and `tick` write it out
        Routine::new(
            "thrust_attitude",
            &[ACCELERATION, Part::Angle],
            |i| geo::thrust_attitude(i.get(), i.get()),
            |i| {
                let (a, yaw) = (i.get(), i.get());
                oracle::geo::thrust_axis_ned(a).and_then(|b3| oracle::geo::desired_attitude(b3, yaw))
            },
        )
        .near(free_fall),
        Routine::new(
            "flatness_omega_ff",
            &[ACCELERATION, JERK, Part::Angle, Part::Number(3.0)],
            |i| geo::flatness_omega_ff(i.get(), i.get(), i.get(), i.get()),
            |i| oracle::geo::flatness_omega_ff(i.get(), i.get(), i.get(), i.get()),
        )
        .near(free_fall),
        // the same, with the attitude worked out before
        Routine::new(
            "feedforward_from",
            &[ACCELERATION, JERK, Part::Angle, Part::Number(3.0)],
            |i| geo::feedforward_from(i.get(), i.get(), i.get(), i.get()),
            |i| oracle::geo::flatness_omega_ff(i.get(), i.get(), i.get(), i.get()),
        )
        .near(free_fall),
    ]
}

fn controllers() -> Vec<Routine> {
    vec![
        Routine::new("GeoGains::FALCON_QUAD", &[], |_| geo::geogains_falcon_quad(), |_| GeoGains::FALCON_QUAD),
        Routine::new("GeoAtt::new", &GAINS, |i| geo::geoatt_new(i.get()), |i| GeoAtt::new(i.get()).words()),
        Routine::new(
            "GeoAtt::psi",
            &[Part::Rotation, Part::Rotation],
            |i| geo::geoatt_psi(i.get(), i.get()),
            |i| GeoAtt::psi(&i.get(), &i.get()),
        ),
        Routine::new(
            "GeoAtt::attitude_error",
            &[Part::Rotation, Part::Rotation],
            |i| geo::geoatt_attitude_error(i.get(), i.get()),
            |i| GeoAtt::attitude_error(&i.get(), &i.get()),
        )
        .near(zeros),
        Routine::new(
            "GeoAtt::attitude_error_reduced",
            &[Part::Rotation, Part::Axis],
            |i| geo::geoatt_attitude_error_reduced(i.get(), i.get()),
            |i| GeoAtt::attitude_error_reduced(&i.get(), i.get()),
        )
        .near(zeros),
        Routine::new(
            "GeoAtt::moment_reduced",
            &with(&GAINS, &[Part::Rotation, RATE, Part::Axis]),
            |i| geo::geoatt_moment_reduced(i.get(), i.get(), i.get(), i.get()),
            |i| controller(i).moment_reduced(&i.get(), i.get(), i.get()),
        ),
        Routine::new(
            "GeoAtt::moment",
            &with(&GAINS, &[Part::Rotation, RATE, Part::Rotation]),
            |i| geo::geoatt_moment(i.get(), i.get(), i.get(), i.get()),
            |i| controller(i).moment(&i.get(), i.get(), &i.get()),
        ),
        Routine::new(
            "GeoAtt::desired_rate",
            &with(&GAINS, &[Part::Quaternion, ACCELERATION, Part::Angle]),
            |i| geo::geoatt_desired_rate(i.get(), i.get(), i.get(), i.get()),
            |i| controller(i).desired_rate(i.get(), i.get(), i.get()),
        )
        .near(|rng, words| free_fall(rng, &mut words[13..])),
        Routine::new(
            "GeoAtt::tick",
            &with(&GAINS, &[Part::Quaternion, RATE, ACCELERATION, Part::Angle]),
            |i| geo::geoatt_tick(i.get(), i.get(), i.get(), i.get(), i.get()),
            |i| controller(i).tick(i.get(), i.get(), i.get(), i.get()),
        )
        .near(|rng, words| free_fall(rng, &mut words[16..])),
    ]
}

fn sets() -> Vec<Routine> {
    vec![
        Routine::new(
            "RecoverableSet::new",
            &SET,
            |i| geo::recoverableset_new(i.get(), i.get(), i.get()),
            |i| RecoverableSet::new(i.get(), i.get(), i.get()),
        ),
        Routine::new(
            "RecoverableSet::margin",
            &with(&SET, &[Part::Above(2.5), Part::Above(100.0)]),
            |i| geo::recoverableset_margin(i.get(), i.get(), i.get()),
            |i| i.get::<RecoverableSet>().margin(i.get(), i.get()),
        )
        .near(on_the_boundary),
        Routine::new(
            "RecoverableSet::recoverable",
            &with(&SET, &[Part::Above(2.5), Part::Above(100.0)]),
            |i| geo::recoverableset_recoverable(i.get(), i.get(), i.get()),
            |i| i.get::<RecoverableSet>().recoverable(i.get(), i.get()),
        )
        .near(on_the_boundary),
    ]
}

fn shields() -> Vec<Routine> {
    vec![
        Routine::new(
            "SimplexShield::new",
            &with(&SET, &[Part::Above(1.0), Part::Above(2.0)]),
            |i| geo::simplexshield_new(i.get(), i.get(), i.get()),
            |i| SimplexShield::new(i.get(), i.get(), i.get()),
        )
        .near(thresholds_together),
        Routine::new(
            "SimplexShield::fallback_engaged",
            &SHIELD,
            |i| geo::simplexshield_fallback_engaged(i.get()),
            |i| i.get::<SimplexShield>().fallback_engaged(),
        ),
        Routine::new(
            "SimplexShield::filter",
            &with(&SHIELD, &[Part::Above(2.5), Part::Above(100.0), RATE, RATE]),
            |i| geo::simplexshield_filter(i.get(), i.get(), i.get(), i.get(), i.get()),
            |i| {
                let mut shield: SimplexShield = i.get();
                let answer = shield.filter(i.get(), i.get(), i.get(), i.get());
                (shield, answer)
            },
        )
        .near(filter_at_a_threshold),
        Routine::new(
            "SimplexShield::step",
            &with(&SHIELD, &[Part::Number(2.0), RATE, RATE]),
            |i| geo::simplexshield_step(i.get(), i.get(), i.get(), i.get()),
            |i| {
                let mut shield: SimplexShield = i.get();
                let answer = shield.step(i.get(), i.get(), i.get());
                (shield, answer)
            },
        )
        .near(margin_at_a_threshold),
        Routine::new(
            "SimplexShield::step, lent",
            &with(&SHIELD, &[Part::Number(2.0), RATE, RATE]),
            |i| {
                let mut shield: geo::SimplexShield = i.get();
                let answer = geo::simplexshield_step_lent(&mut shield, i.get(), i.get(), i.get());
                (shield, answer)
            },
            |i| {
                let mut shield: SimplexShield = i.get();
                let answer = shield.step(i.get(), i.get(), i.get());
                (shield, answer)
            },
        )
        .near(margin_at_a_threshold),
    ]
}

/// A vector whose norm is near 1e-9, or near where its square leaves the range.
fn norm_at_the_least(rng: &mut Rng, words: &mut [f32]) {
    let length = rng.of(&[1e-9, 1e-9, 1e-9, 1.844_674_3e19, 1e-22, 1e-3]).unwrap_or(1e-9);
    short(rng, length, words);
}

/// A vector of nearly this length: along one axis exactly, or in any direction.
fn short(rng: &mut Rng, length: f32, words: &mut [f32]) {
    let v: [f32; 3] = if rng.flag() {
        let at = rng.below(3);
        let x = rng.near_one(&[length]);
        std::array::from_fn(|k| if k == at { x } else { rng.of(&[0.0, -0.0, length * 1e-4]).unwrap_or(0.0) })
    } else {
        let scale = rng.near(length);
        rng.direction::<3>().map(|x| x * scale)
    };
    words.iter_mut().zip(v).for_each(|(w, x)| *w = x);
}

/// Zeros of both signs for some of the words: sums that start from 0.0 differ from those that don't.
fn zeros(rng: &mut Rng, words: &mut [f32]) {
    for w in words {
        *w = rng.of(&[0.0, -0.0, 1.0, -1.0, *w]).unwrap_or(0.0);
    }
}

/// An acceleration near free fall, which leaves a thrust of size near 1e-9 or 1e-3, or none; the heading is at its limit at times.
/// The words are the acceleration and what comes after it, the heading among it.
fn free_fall(rng: &mut Rng, words: &mut [f32]) {
    let length = rng.of(&[1e-9, 1e-3, 1e-3, 1e-6, 0.0, 1.844_674_3e19]).unwrap_or(1e-3);
    short(rng, length, &mut words[..3]);
    // 0.0 - a and 9.81 - a: the first two lose their sign, the third its neighbourhood of 9.81
    words[2] = if length < 1.0 { rng.of(&[9.81, 9.81, 9.809_999, 9.810_001, 9.809, 9.811]).unwrap_or(9.81) } else { words[2] };
    let last = words.len() - 1;
    if last > 2 && rng.below(4) == 0 {
        let heading = if last > 6 { 6 } else { 3 };
        words[heading] = rng.near_one(&[LIMIT, EARLIER_LIMIT, f32::INFINITY, 0.0]);
    }
}

/// An axis along the heading or near it, so that no second axis can be had; or a short one; or a heading at its limit.
fn axis_along_the_heading(rng: &mut Rng, words: &mut [f32]) {
    match rng.below(4) {
        0 => norm_at_the_least(rng, &mut words[..3]),
        1 => words[3] = rng.near_one(&[LIMIT, EARLIER_LIMIT, f32::INFINITY, 0.0]),
        _ => {
            let scale = rng.range(0.5, 2.0);
            let off = rng.of(&[0.0, 1e-9, 1e-8, 1e-7, -1e-9]).unwrap_or(0.0);
            let off = rng.near(off);
            let (s, c) = archives::sincos(words[3]);
            words[0] = c * scale;
            words[1] = rng.near(s * scale);
            words[2] = off * scale;
        }
    }
}

/// psi near psi_max or 2, lambda_j near 0, a squared rate near what the attitude leaves for it, the two parts equal.
fn on_the_boundary(rng: &mut Rng, words: &mut [f32]) {
    let [k_r, lambda_j, psi_max] = [words[0], words[1], words[2]];
    match rng.below(5) {
        0 => words[3] = rng.near(psi_max),
        1 => words[3] = rng.near(2.0),
        2 => words[1] = rng.near_one(&[0.0, 1e-44, 1e-38]),
        3 => words[4] = rng.near(2.0 * k_r * (2.0 - words[3]) / lambda_j),
        _ => {
            let cap = 2.0 * k_r * (2.0 - words[3]) / lambda_j;
            words[4] = rng.near(cap - (psi_max - words[3]));
        }
    }
}

/// enter near 0 or too large to double, exit near enter.
fn thresholds_together(rng: &mut Rng, words: &mut [f32]) {
    if rng.flag() {
        words[3] = rng.near_one(&[0.0, 0.1, 1.701_411_8e38, 3.0e38, f32::INFINITY]);
    }
    words[4] = rng.near(words[3]);
}

/// The margin at enter or exit, or next to it.
fn margin_at_a_threshold(rng: &mut Rng, words: &mut [f32]) {
    if rng.flag() {
        words[5] = words[4] + rng.range(0.0, 1.0);
    }
    let at = rng.of(&[words[4], words[5]]).unwrap_or(0.0);
    words[6] = rng.near(at);
}

/// A margin that is psi_max - psi, at enter or exit or next to it.
fn filter_at_a_threshold(rng: &mut Rng, words: &mut [f32]) {
    if rng.flag() {
        words[5] = words[4] + rng.range(0.0, 1.0);
    }
    let at = rng.of(&[words[4], words[5]]).unwrap_or(0.0);
    words[0] = 2.0;
    words[1] = 0.01;
    words[7] = rng.range(0.0, 1.0);
    words[6] = words[2] - rng.near(at);
}
