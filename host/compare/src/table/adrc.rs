//! 002: relay-adrc.

use crate::generate::{Part, Rng};
use crate::routine::Routine;
use crate::words::Words;
use archives::adrc;
use oracle::adrc::{private, AdrcAxis, AdrcGains, AdrcRate, Biquad, CommandFilter, CommandFilter3, GyroLpf};

/// omega_o, omega_c, b0, tau.
const GAINS: [Part; 4] = [Part::Above(60.0), Part::Above(20.0), Part::Number(80.0), Part::Number(0.05)];

/// z1, z2, u_prev, u_act, the fraction, and the gains.
const AXIS: [Part; 9] = [
    Part::Number(10.0),
    Part::Number(100.0),
    Part::Number(5.0),
    Part::Number(5.0),
    Part::Above(1.0),
    Part::Above(60.0),
    Part::Above(20.0),
    Part::Number(80.0),
    Part::Number(0.05),
];

/// b0, b1, b2, a1, a2, and the last inputs and outputs.
const BIQUAD: [Part; 9] = [
    Part::Above(1.0),
    Part::Above(1.0),
    Part::Above(1.0),
    Part::Number(2.0),
    Part::Number(1.0),
    Part::Number(10.0),
    Part::Number(10.0),
    Part::Number(10.0),
    Part::Number(10.0),
];

/// omega_n, max_mag, max_rate, y, yd.
const FILTER: [Part; 5] = [Part::Above(20.0), Part::Above(10.0), Part::Above(50.0), Part::Number(10.0), Part::Number(50.0)];

const RATE: Part = Part::Number(10.0);
const RATES: Part = Part::Vector(10.0);

fn with(first: &[Part], then: &[Part]) -> Vec<Part> {
    [first, then].concat()
}

/// The state after a call that changes it.
fn after<T: Words>(mut state: T, call: impl FnOnce(&mut T)) -> T {
    call(&mut state);
    state
}

pub fn routines() -> Vec<Routine> {
    [gains(), axes(), lowpasses(), rates(), filters()].into_iter().flatten().collect()
}

fn gains() -> Vec<Routine> {
    vec![
        Routine::new(
            "AdrcGains::new",
            &GAINS[..3],
            |i| adrc::adrcgains_new(i.get(), i.get(), i.get()),
            |i| AdrcGains::new(i.get(), i.get(), i.get()),
        ),
        Routine::new(
            "AdrcGains::with_tau",
            &GAINS,
            |i| adrc::adrcgains_with_tau(i.get(), i.get(), i.get(), i.get()),
            |i| AdrcGains::with_tau(i.get(), i.get(), i.get(), i.get()),
        ),
        Routine::new(
            "AdrcGains::from_bandwidth",
            &[Part::Above(20.0), Part::Above(10.0), Part::Number(80.0), Part::Number(0.05)],
            |i| adrc::adrcgains_from_bandwidth(i.get(), i.get(), i.get(), i.get()),
            |i| AdrcGains::from_bandwidth(i.get(), i.get(), i.get(), i.get()),
        ),
        Routine::new(
            "AdrcGains::well_separated",
            &with(&GAINS, &[Part::Above(10.0)]),
            |i| adrc::adrcgains_well_separated(i.get(), i.get()),
            |i| i.get::<AdrcGains>().well_separated(i.get()),
        )
        .near(|rng, words| {
            words[0] = rng.near(words[4] * words[1]);
            if rng.below(4) == 0 {
                words[1] = rng.near_one(&[0.0]);
            }
        }),
        Routine::new(
            "AdrcGains::eso_dt_stable",
            &with(&GAINS, &[Part::Step, Part::Above(1.0)]),
            |i| adrc::adrcgains_eso_dt_stable(i.get(), i.get(), i.get()),
            |i| i.get::<AdrcGains>().eso_dt_stable(i.get(), i.get()),
        )
        .near(|rng, words| {
            words[5] = rng.near(0.5 * (words[0] * words[4]));
            if rng.below(4) == 0 {
                words[4] = rng.near_one(&[0.0]);
            }
        }),
    ]
}

fn axes() -> Vec<Routine> {
    vec![
        Routine::new("sanitise", &[RATE, RATE], |i| adrc::sanitise(i.get(), i.get()), |i| private::sanitise(i.get(), i.get())),
        Routine::new("AdrcAxis::new", &GAINS, |i| adrc::adrcaxis_new(i.get()), |i| AdrcAxis::new(i.get())),
        Routine::new("AdrcAxis::disturbance", &AXIS, |i| adrc::adrcaxis_disturbance(i.get()), |i| i.get::<AdrcAxis>().disturbance()),
        Routine::new(
            "AdrcAxis::tick",
            &with(&AXIS, &[RATE, RATE, Part::Step]),
            |i| adrc::adrcaxis_tick(i.get(), i.get(), i.get(), i.get()),
            |i| {
                let mut axis: AdrcAxis = i.get();
                let u = axis.tick(i.get(), i.get(), i.get());
                (axis, u)
            },
        )
        .near(|rng, words| {
            step_at_a_clamp(rng, &mut words[11]);
            gains_at_a_limit(rng, &mut words[5..9]);
        }),
        Routine::new("AdrcAxis::reset", &AXIS, |i| adrc::adrcaxis_reset(i.get()), |i| after(i.get::<AdrcAxis>(), |axis| axis.reset())),
        Routine::new(
            "AdrcAxis::set_delivered_fraction",
            &with(&AXIS, &[Part::Number(1.5)]),
            |i| adrc::adrcaxis_set_delivered_fraction(i.get(), i.get()),
            |i| after(i.get::<AdrcAxis>(), |axis| axis.set_delivered_fraction(i.get())),
        )
        .near(|rng, words| words[9] = rng.near_one(&[0.0, 1.0, f32::INFINITY])),
    ]
}

fn lowpasses() -> Vec<Routine> {
    vec![
        Routine::new(
            "Biquad::lowpass",
            &[Part::Above(500.0), Part::Above(2000.0)],
            |i| adrc::biquad_lowpass(i.get(), i.get()),
            |i| Biquad::lowpass(i.get(), i.get()),
        )
        .near(at_half_the_rate),
        Routine::new("Biquad::passthrough", &[], |_| adrc::biquad_passthrough(), |_| private::passthrough()),
        Routine::new(
            "Biquad::filter",
            &with(&BIQUAD, &[RATE]),
            |i| adrc::biquad_filter(i.get(), i.get()),
            |i| {
                let mut filter: Biquad = i.get();
                let y = filter.filter(i.get());
                (filter, y)
            },
        )
        .near(pass_through),
        Routine::new(
            "GyroLpf::new",
            &[Part::Above(500.0), Part::Above(2000.0)],
            |i| adrc::gyrolpf_new(i.get(), i.get()),
            |i| GyroLpf::new(i.get(), i.get()),
        )
        .near(at_half_the_rate),
        Routine::new(
            "GyroLpf::filter",
            &with(&[BIQUAD, BIQUAD, BIQUAD].concat(), &[RATES]),
            |i| adrc::gyrolpf_filter(i.get(), i.get()),
            |i| {
                let mut filter: GyroLpf = i.get();
                let y = filter.filter(i.get());
                (filter, y)
            },
        ),
    ]
}

fn rates() -> Vec<Routine> {
    let three = [AXIS, AXIS, AXIS].concat();
    vec![
        Routine::new(
            "AdrcRate::new",
            &[GAINS, GAINS, GAINS].concat(),
            |i| adrc::adrcrate_new(i.get(), i.get(), i.get()),
            |i| AdrcRate::new(i.get::<[AdrcGains; 3]>()),
        ),
        Routine::new("AdrcRate::falcon_quad", &[], |_| adrc::adrcrate_falcon_quad(), |_| AdrcRate::falcon_quad()),
        Routine::new(
            "AdrcRate::tick",
            &with(&three, &[RATES, RATES, Part::Step]),
            |i| adrc::adrcrate_tick(i.get(), i.get(), i.get(), i.get()),
            |i| {
                let mut rate: AdrcRate = i.get();
                let torque = rate.tick(i.get(), i.get(), i.get());
                (rate, torque)
            },
        )
        .near(|rng, words| {
            step_at_a_clamp(rng, &mut words[33]);
            let axis = 9 * rng.below(3);
            gains_at_a_limit(rng, &mut words[axis + 5..axis + 9]);
        }),
        Routine::new("AdrcRate::reset", &three, |i| adrc::adrcrate_reset(i.get()), |i| after(i.get::<AdrcRate>(), |rate| rate.reset())),
        Routine::new(
            "AdrcRate::set_delivered_fraction",
            &with(&three, &[Part::Vector(1.5)]),
            |i| adrc::adrcrate_set_delivered_fraction(i.get(), i.get()),
            |i| after(i.get::<AdrcRate>(), |rate| rate.set_delivered_fraction(i.get())),
        )
        .near(|rng, words| words[27 + rng.below(3)] = rng.near_one(&[0.0, 1.0, f32::INFINITY])),
        Routine::new("AdrcRate::disturbance", &three, |i| adrc::adrcrate_disturbance(i.get()), |i| i.get::<AdrcRate>().disturbance()),
    ]
}

fn filters() -> Vec<Routine> {
    let three = [FILTER, FILTER, FILTER].concat();
    vec![
        Routine::new(
            "clamp_sym",
            &[RATE, Part::Number(10.0)],
            |i| adrc::clamp_sym(i.get(), i.get()),
            |i| private::clamp_sym(i.get(), i.get()),
        )
        .near(|rng, words| {
            words[1] = rng.near_one(&[0.0, 0.0, words[1], f32::INFINITY]);
            words[0] = rng.near_one(&[0.0, words[1], words[0]]);
        }),
        Routine::new(
            "CommandFilter::new",
            &FILTER[..3],
            |i| adrc::commandfilter_new(i.get(), i.get(), i.get()),
            |i| CommandFilter::new(i.get(), i.get(), i.get()),
        )
        .near(|rng, words| words[0] = rng.near_one(&[0.0, f32::INFINITY])),
        Routine::new(
            "CommandFilter::step",
            &with(&FILTER, &[RATE, Part::Step]),
            |i| adrc::commandfilter_step(i.get(), i.get(), i.get()),
            |i| {
                let mut filter: CommandFilter = i.get();
                let y = filter.step(i.get(), i.get());
                (filter, y)
            },
        )
        .near(|rng, words| {
            step_at_a_clamp(rng, &mut words[6]);
            filter_at_a_limit(rng, &mut words[..5]);
        }),
        Routine::new("CommandFilter::value", &FILTER, |i| adrc::commandfilter_value(i.get()), |i| i.get::<CommandFilter>().value()),
        Routine::new("CommandFilter::rate", &FILTER, |i| adrc::commandfilter_rate(i.get()), |i| i.get::<CommandFilter>().rate()),
        Routine::new(
            "CommandFilter::reset",
            &FILTER,
            |i| adrc::commandfilter_reset(i.get()),
            |i| after(i.get::<CommandFilter>(), |filter| filter.reset()),
        ),
        Routine::new(
            "CommandFilter3::new",
            &FILTER[..3],
            |i| adrc::commandfilter3_new(i.get(), i.get(), i.get()),
            |i| CommandFilter3::new(i.get(), i.get(), i.get()),
        )
        .near(|rng, words| words[0] = rng.near_one(&[0.0, f32::INFINITY])),
        Routine::new(
            "CommandFilter3::step",
            &with(&three, &[RATES, Part::Step]),
            |i| adrc::commandfilter3_step(i.get(), i.get(), i.get()),
            |i| {
                let mut filter: CommandFilter3 = i.get();
                let y = filter.step(i.get(), i.get());
                (filter, y)
            },
        )
        .near(|rng, words| {
            step_at_a_clamp(rng, &mut words[18]);
            let axis = 5 * rng.below(3);
            filter_at_a_limit(rng, &mut words[axis..axis + 5]);
        }),
        Routine::new(
            "CommandFilter3::reset",
            &three,
            |i| adrc::commandfilter3_reset(i.get()),
            |i| after(i.get::<CommandFilter3>(), |filter| filter.reset()),
        ),
    ]
}

/// A step at one of its two clamps, 0, or not finite.
fn step_at_a_clamp(rng: &mut Rng, dt: &mut f32) {
    *dt = rng.near_one(&[1e-4, 1e-4, 0.1, 0.1, 1e-3, 0.0, f32::INFINITY]);
}

/// One of omega_o, omega_c, b0, tau where its mending begins.
fn gains_at_a_limit(rng: &mut Rng, gains: &mut [f32]) {
    let at = rng.below(4);
    gains[at] = match at {
        2 => rng.near_one(&[1e-3]),
        3 => rng.near_one(&[1e-4, 0.0]),
        _ => rng.near_one(&[0.0, f32::INFINITY]),
    };
}

/// fc at half of fs, fs subnormal, an angle that overflows.
fn at_half_the_rate(rng: &mut Rng, words: &mut [f32]) {
    match rng.below(4) {
        0 => words[1] = f32::from_bits(rng.below(9) as u32),
        1 => (words[0], words[1]) = (rng.range(5e37, 1.7e38), rng.range(1e38, 3.4e38)),
        _ => {}
    }
    if rng.flag() {
        words[0] = rng.near(0.5 * words[1]);
    }
}

/// The coefficients of a pass-through, with zeros of both signs in what it remembers.
fn pass_through(rng: &mut Rng, words: &mut [f32]) {
    words[..5].copy_from_slice(&[1.0, 0.0, 0.0, 0.0, 0.0]);
    for w in &mut words[5..] {
        *w = rng.of(&[0.0, -0.0, *w, 1.0, -1.0, f32::INFINITY]).unwrap_or(0.0);
    }
}

/// A value or a rate at its limit, a limit that is none, a state that isn't finite.
fn filter_at_a_limit(rng: &mut Rng, words: &mut [f32]) {
    match rng.below(5) {
        0 => words[3] = rng.near_one(&[words[1]]),
        1 => words[4] = rng.near_one(&[words[2]]),
        2 => words[1] = rng.near_one(&[0.0, f32::INFINITY]),
        3 => words[2] = rng.near_one(&[0.0, f32::INFINITY]),
        _ => words[3 + rng.below(2)] = rng.near_one(&[f32::INFINITY, f32::MAX]),
    }
}
