//! The worked figures of document 01, starred and not, through the archive's own calls. Their values are written from the document.

use compare::words::{Out, Words};
use archives::geo::{GeoAtt, GeoGains, Quat, RecoverableSet};
use archives::{adrc, geo, traj, BodyRate, Torque, Vec3};

/// The bits of an answer's words.
fn bits(of: impl Words) -> Vec<u32> {
    let mut o = Out::new();
    of.put(&mut o);
    o.words().iter().map(|w| w.to_bits()).collect()
}

/// The same words, signs of zeros too.
fn is(answer: impl Words, expected: &[f32]) {
    assert_eq!(bits(answer), expected.iter().map(|x| x.to_bits()).collect::<Vec<_>>(), "expected {expected:?}");
}

#[test]
fn roots() {
    is(archives::sqrtf(4.0), &[2.0]);
    assert_eq!(archives::sqrtf(f32::from_bits(0x0000_0001)).to_bits(), 0x1A35_04F3);
}

#[test]
fn margins() {
    let set = RecoverableSet { k_r: 1.0, lambda_j: 1.0, psi_max: 1.75 };
    is(geo::recoverableset_margin(set, 0.25, 3.0), &[0.5]);
    is(geo::recoverableset_margin(set, 1.75, 0.5), &[0.0]);
    assert!(geo::recoverableset_recoverable(set, 1.75, 0.5));
}

#[test]
fn gates() {
    let governor = traj::refgovernor_new(1.0, 3.0, 0.25);
    for (error, gate) in [(1.0, 1.0), (2.0, 0.625), (3.0, 0.25), (f32::NAN, 0.25)] {
        is(traj::refgovernor_gate(governor, error), &[gate]);
        is(traj::gate_factor(error, 1.0, 3.0, 0.25), &[gate]);
    }
}

#[test]
fn rest_to_rest() {
    let q = traj::quintic_new(0.0, 0.0, 0.0, 1.0, 0.0, 0.0, 2.0);
    is(q, &[0.1875, -0.9375, 1.25, 0.0, 0.0, 0.0, 2.0]);
    is(traj::quintic_eval(q, 1.0), &[0.5, 0.9375, 0.0, -3.75]);
    is(traj::quintic_peak_abs_jerk(q), &[97.5]);
    // the same on each axis of a segment
    let segment = traj::segment3_rest_to_rest(Vec3(0.0, 0.0, 0.0), Vec3(1.0, 1.0, 1.0), 2.0);
    is(traj::segment3_eval(segment, 1.0), &[0.5, 0.5, 0.5, 0.9375, 0.9375, 0.9375, 0.0, 0.0, 0.0, -3.75, -3.75, -3.75]);
    is(traj::segment3_peak_abs_jerk(segment), &[97.5; 3]);
}

#[test]
fn adrc_two_ticks() {
    let gains = adrc::adrcgains_with_tau(4.0, 2.0, 2.0, 0.0);
    let first = adrc::adrcaxis_tick(adrc::adrcaxis_new(gains), 1.0, 0.0, 0.0625);
    is([first.axis.z1, first.axis.z2, first.u], &[0.5, 1.0, -1.0]);
    let second = adrc::adrcaxis_tick(adrc::adrcaxis_set_delivered_fraction(first.axis, 0.5), 1.0, 0.0, 0.0625);
    is([second.axis.z1, second.axis.z2, second.u], &[0.75, 1.5, -1.5]);
}

#[test]
fn command_filter() {
    let step = adrc::commandfilter_step(adrc::commandfilter_new(2.0, 1.0, 0.125), 1.0, 0.0625);
    is(step.y, &[0.0078125]);
}

#[test]
fn clamps() {
    is(adrc::clamp_sym(5.0, f32::INFINITY), &[5.0]);
    is(adrc::clamp_sym(5.0, -1.0), &[0.0]);
}

#[test]
fn attitudes() {
    let level = geo::desired_attitude(Vec3(0.0, 0.0, 1.0), 0.0);
    assert!(level.given);
    is(level.matrix, &[1.0, 0.0, 0.0, 0.0, 1.0, 0.0, 0.0, 0.0, 1.0]);
    assert_eq!(bits(level.matrix), bits(geo::identity3()));
    assert!(!geo::desired_attitude(Vec3(1.0, 0.0, 0.0), 0.0).given);
}

/// Free fall: `tick` damps the rate and nothing else, `desired_rate` gives zeros, the feedforward refuses.
#[test]
fn damping_only() {
    let controller = GeoAtt { gains: GeoGains { k_r: Vec3(3.0, 3.0, 3.0), k_omega: Vec3(0.5, 0.25, 2.0), j: Vec3(1.0, 2.0, 3.0) } };
    let (q, fall) = (Quat(0.5, 0.5, 0.5, 0.5), Vec3(0.0, 0.0, 9.81));
    let Torque(torque) = geo::geoatt_tick(controller, q, BodyRate(Vec3(1.0, 2.0, -4.0)), fall, 0.0);
    is(torque, &[-0.5, -0.5, 8.0]);
    is(geo::geoatt_desired_rate(controller, q, fall, 0.0), &[0.0, 0.0, 0.0]);
    assert!(!geo::flatness_omega_ff(fall, Vec3(1.0, 0.0, 0.0), 0.0, 0.0).given);
}

/// From the rules: the angle of the low-pass overflows.
#[test]
fn lowpass_beyond_the_range() {
    is(adrc::biquad_lowpass(1e38, 3e38), &[0.5, 1.0, 0.5, -0.0, 1.0, 0.0, 0.0, 0.0, 0.0]);
}

/// The margins and flags that `shieldtable` prints, on a shield with enter 0.5 and exit 1.
#[test]
fn shield_table() {
    let set = geo::recoverableset_new(1.0, 1.0, 1.75);
    let mut shield = geo::simplexshield_new(set, 0.5, 1.0);
    assert!(geo::simplexshield_fallback_engaged(shield));
    let lines = [
        (0x3f80_0000, true),
        (0x3fc0_0000, false),
        (0x3f40_0000, false),
        (0x3f00_0000, false),
        (0x3e80_0000, true),
        (0x3f40_0000, true),
        (0x3fc0_0000, false),
        (0x7fc0_0000, true),
        (0x7f80_0000, true),
    ];
    let (agile, fallback) = (BodyRate(Vec3(1.0, f32::NAN, 3.0)), BodyRate(Vec3(-1.0, -2.0, f32::INFINITY)));
    for (margin, flag) in lines {
        let answer = geo::simplexshield_step(shield, f32::from_bits(margin), agile, fallback);
        assert_eq!(answer.fallback, flag, "margin {margin:08x}");
        is(answer.command, if flag { &[-1.0, -2.0, 0.0] } else { &[1.0, 0.0, 3.0] });
        shield = answer.shield;
    }
}

/// A length of a segment that no constructor makes: the Rust panics, ours is two comparisons, one after the other.
#[test]
fn a_segment_of_no_length() {
    let at = |t_end, t| traj::quintic_eval(traj::Quintic { c5: 0.0, c4: 0.0, c3: 0.0, c2: 0.0, c1: 1.0, c0: 0.0, t_end }, t).p;
    is(at(f32::NAN, 3.0), &[3.0]);
    is(at(f32::NAN, -3.0), &[0.0]);
    is(at(-2.0, 3.0), &[-2.0]);
    is(at(-2.0, f32::NAN), &[0.0]);
}
