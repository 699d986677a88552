//! docs/DIFFERENCES.md, line by line: the input that shows a difference is run through the archive's own calls and through the Rust as published.

use compare::joint::bytes::{float, put, word, ANSWER, IMAGE, SETUP, SETUP_PROFILE, TICK};
use compare::joint::model::Flight;
use archives::geo::{Mat3, Quat, RecoverableSet};
use archives::{adrc, geo, pos, traj, BodyRate, Vec3};
use oracle::{adrc as rust_adrc, geo as rust_geo, pos as rust_pos, traj as rust_traj};
use relay_math_published as published;

const ZERO: Vec3 = Vec3(0.0, 0.0, 0.0);
const LEVEL: Mat3 = Mat3(Vec3(1.0, 0.0, 0.0), Vec3(0.0, 1.0, 0.0), Vec3(0.0, 0.0, 1.0));

fn array(v: Vec3) -> [f32; 3] {
    [v.0, v.1, v.2]
}

fn rows(m: Mat3) -> [[f32; 3]; 3] {
    [array(m.0), array(m.1), array(m.2)]
}

fn f(bits: u32) -> f32 {
    f32::from_bits(bits)
}

/// The same bits on both sides, and these.
fn both(ours: f32, theirs: f32, bits: u32) {
    assert_eq!([ours.to_bits(), theirs.to_bits()], [bits, bits], "{ours} and {theirs} where {} was expected", f(bits));
}

#[test]
fn sine_and_cosine_are_not_the_published_ones() {
    assert_eq!([archives::sinf(-0.0).to_bits(), published::sinf(-0.0).to_bits()], [0x8000_0000, 0]);
    let beyond = f(0x4600_0001);
    assert_eq!([archives::sinf(beyond).to_bits(), archives::cosf(beyond).to_bits()], [0, 0]);
    assert_eq!(published::sinf(beyond).to_bits(), 0xbf74_b4fe);
    assert_eq!([archives::sinf(1.0).to_bits(), published::sinf(1.0).to_bits()], [0x3f57_6aa4, 0x3f57_6aa5]);
    let (three_pi, half_of_it) = (f(0x4116_cbe4), f(0x4096_cbe4));
    assert_eq!([archives::sinf(three_pi).to_bits(), published::sinf(three_pi).to_bits()], [0xb2cc_de34, 0xb2cc_de20]);
    assert_eq!((f64::from(three_pi).sin() as f32).to_bits(), 0xb2cc_de2e);
    assert_eq!(archives::cosf(half_of_it).to_bits().abs_diff(published::cosf(half_of_it).to_bits()), 20);
    let (a, b) = (f(0x4155_afd3), f(0x4016_cc3a));
    assert_eq!([archives::sinf(a) - published::sinf(a), archives::cosf(b) - published::cosf(b)].map(f32::abs), [2f32.powi(-23); 2]);
}

/// A stride, and prime, of what `make exhaustive` runs in full.
#[test]
fn sine_and_cosine_are_near_the_published_ones() {
    for found in [compare::numbers::apart(251, archives::sinf, published::sinf), compare::numbers::apart(251, archives::cosf, published::cosf)] {
        assert!(found.cases > 8_000_000 && found.differ > 0, "{} of {}", found.differ, found.cases);
        assert!(found.units <= 20 && found.distance <= 2f64.powi(-23), "{} units, {:e}", found.units, found.distance);
    }
}

/// Built with its own kernels the Rust has a heading there; built with ours, as document 01 asks, it has none, and neither have we.
#[test]
fn headings_beyond_8192_have_no_attitude() {
    let (limit, beyond) = (f(0x4600_0000), f(0x4600_0001));
    let down = Vec3(0.0, 0.0, 1.0);
    let own = [published::cosf(beyond), published::sinf(beyond), 0.0];
    assert!(rust_geo::private::normalize(rust_geo::private::cross(array(down), own)).is_some());
    for (yaw, given) in [(limit, true), (beyond, false), (-beyond, false)] {
        assert_eq!([geo::desired_attitude(down, yaw).given, rust_geo::desired_attitude(array(down), yaw).is_some()], [given; 2]);
    }
    let tilt = Vec3(0.25, 0.5, 0.75);
    assert!(!geo::flatness_omega_ff(tilt, tilt, beyond, 0.0).given);
    assert!(rust_geo::flatness_omega_ff(array(tilt), array(tilt), beyond, 0.0).is_none());
    let controller = geo::geoatt_new(geo::geogains_falcon_quad());
    let rate = geo::geoatt_desired_rate(controller, Quat(1.0, 0.0, 0.0, 0.0), tilt, beyond);
    assert_eq!(array(rate.0).map(f32::to_bits), [0; 3]);
    // the tick: no margin, and the fallback flies at zero though the planner flew
    let mut image = fosavalo::Image::set_up(&fosavalo::SetUp::falcon_quad()).expect("a set-up");
    let mut tick = |yaw| {
        let planner = fosavalo::BodyRate([0.5, 0.0, 0.0]);
        image.tick(&fosavalo::TickInput { yaw, planner, ..fosavalo::TickInput::default() }).expect("a tick")
    };
    assert_eq!(tick(0.0).pilot, fosavalo::Pilot::Planner);
    let lost = tick(beyond);
    assert_eq!((lost.pilot, lost.margin, lost.psi.is_nan()), (fosavalo::Pilot::Fallback, f32::NEG_INFINITY, true));
    assert_eq!(lost.command.0.map(f32::to_bits), [0; 3]);
    assert_eq!(tick(0.0).pilot, fosavalo::Pilot::Planner);
    // half the angle counts, so here the limit is 16384, for each of the three
    let (at, past) = (f(0x4680_0000), f(0x4680_0001));
    for (angle, none) in [(at, false), (past, true)] {
        for [roll, pitch, yaw] in [[angle, 0.25, 0.5], [0.25, angle, 0.5], [0.25, 0.5, angle]] {
            let ours = archives::pos::euler_to_quaternion(roll, pitch, yaw);
            let theirs = oracle::pos::euler_to_quaternion(roll, pitch, yaw);
            assert_eq!([[ours.0, ours.1, ours.2, ours.3] == [0.0; 4], theirs == [0.0; 4]], [none; 2]);
        }
    }
    assert_ne!([published::cosf(past * 0.5), published::sinf(past * 0.5)], [0.0; 2]);
}

#[test]
fn the_attitude_error_is_the_full_vee() {
    let (sine, cosine) = archives::sincos(0.5);
    let tilted = Mat3(LEVEL.0, Vec3(0.0, cosine, -sine), Vec3(0.0, sine, cosine));
    let (ours, theirs) = (geo::geoatt_attitude_error(tilted, LEVEL), rust_geo::GeoAtt::attitude_error(&rows(tilted), &rows(LEVEL)));
    both(ours.0, theirs[0], (2.0 * sine).to_bits());
}

#[test]
fn the_feedforward_has_the_other_sign() {
    let ours = geo::flatness_omega_ff(ZERO, Vec3(1.0, 0.0, 0.0), 0.0, 0.0);
    let theirs = rust_geo::flatness_omega_ff([0.0; 3], [1.0, 0.0, 0.0], 0.0, 0.0).expect("a rate");
    assert!(ours.given && ours.rate.0 .1 < 0.0);
    both(ours.rate.0 .1, theirs[1], theirs[1].to_bits());
}

/// Level at heading 0, turning at 2 as commanded: through the archive, and with all of the rate handed to the Rust's own margin. The image has no
/// filter, as earlier releases took it.
#[test]
fn a_tick_counts_no_commanded_turning_as_error() {
    let (mut image, mut answer) = ([0; IMAGE], [0; ANSWER]);
    let mut set_up = [0; SETUP];
    [(9, 1.0f32), (10, 1.0), (11, 1.75), (35, 2.0)].iter().for_each(|(at, x)| put(&mut set_up, *at, x.to_bits()));
    let mut input = [0; TICK];
    [(2, 2.0f32), (3, 1.0), (9, 2.0), (10, 0.001)].iter().for_each(|(at, x)| put(&mut input, *at, x.to_bits()));
    Flight::set_up(&set_up).write(&mut image);
    assert_eq!(archives::tick(&mut image, &input, &mut answer), 0);
    let set = rust_geo::RecoverableSet::new(1.0, 1.0, 1.75);
    assert_eq!([float(&answer, 9), set.margin(float(&answer, 8), 4.0)], [1.75, 0.0]);
}

/// One tick of a fresh image at rest with the set (1, 1, 1.75) in this profile: the answer.
fn at_rest(profile: u32, words: &[(usize, f32)]) -> [u8; ANSWER] {
    let (mut image, mut answer, mut set_up, mut input) = ([0; IMAGE], [0; ANSWER], [0; SETUP], [0; TICK]);
    let own = [(0, 0.6f32), (1, 0.6), (9, 1.0), (10, 1.0), (11, 1.75), (35, 2.0), (48, 80.0), (49, 1000.0)];
    own.iter().for_each(|(at, x)| put(&mut set_up, *at, x.to_bits()));
    put(&mut set_up, SETUP_PROFILE, profile);
    words.iter().for_each(|(at, x)| put(&mut input, *at, x.to_bits()));
    assert_eq!([archives::setup(&mut image, &set_up), archives::tick(&mut image, &input, &mut answer)], [0, 0]);
    answer
}

#[test]
fn with_a_rotor_lost_no_heading_is_read() {
    let spinning = [(2, 20.0), (3, 1.0), (8, f(0x7fc0_0000)), (10, 0.001)];
    let [lost, whole] = [1, 0].map(|profile| at_rest(profile, &spinning));
    assert_eq!((float(&lost, 9), word(&lost, 6)), (1.75, 0));
    assert_eq!((float(&whole, 9), word(&whole, 6)), (f32::NEG_INFINITY, 1));
}

/// `moment_reduced` damps; the fallback's rate does not. Upside down both have no error.
#[test]
fn with_a_rotor_lost_the_fallback_is_a_rate() {
    let over = at_rest(1, &[(0, 0.5), (4, 1.0), (10, 0.001)]);
    assert_eq!([3, 4, 5].map(|at| float(&over, at)), [0.0; 3]);
    assert_eq!((float(&over, 8), float(&over, 9)), (2.0, -0.25));
    let gains = rust_geo::GeoGains { k_r: [0.6; 3], k_omega: [0.1; 3], j: [0.02; 3] };
    let r = [[1.0, 0.0, 0.0], [0.0, -1.0, 0.0], [0.0, 0.0, -1.0]];
    assert!(rust_geo::GeoAtt::new(gains).moment_reduced(&r, [0.5, 0.0, 0.0], [0.0, 0.0, 1.0])[0] < 0.0);
}

/// Nothing of before is taken for an image or a set-up of today.
#[test]
fn images_of_before_are_refused() {
    let (mut image, mut set_up) = ([0; IMAGE], [0; SETUP]);
    [(48, 80.0f32), (49, 1000.0)].iter().for_each(|(at, x)| put(&mut set_up, *at, x.to_bits()));
    assert_eq!(archives::setup(&mut image, &set_up), 0);
    assert_eq!((archives::setup(&mut image, &set_up[..200]), archives::setup(&mut [0; 380], &set_up)), (2, 1));
    let tick = |image: &mut [u8]| archives::tick(image, &[0; TICK], &mut [0; ANSWER]);
    assert_eq!(tick(&mut image.clone()), 0);
    put(&mut image, 0, 95);
    assert_eq!((tick(&mut image[..380].to_vec()), tick(&mut image)), (1, 4));
}

/// A fresh image, filtered at 80 Hz, and a level tick for it.
fn fresh() -> ([u8; IMAGE], [u8; TICK]) {
    let (mut image, mut set_up, mut input) = ([0; IMAGE], [0; SETUP], [0; TICK]);
    [(35, 2.0f32), (48, 80.0), (49, 1000.0)].iter().for_each(|(at, x)| put(&mut set_up, *at, x.to_bits()));
    [(3, 1.0f32), (10, 0.001)].iter().for_each(|(at, x)| put(&mut input, *at, x.to_bits()));
    assert_eq!(archives::setup(&mut image, &set_up), 0);
    (image, input)
}

/// Worked out of such a coefficient the peak is +infinity on both sides, so a stored NaN is no image's.
#[test]
fn a_peak_is_never_a_nan() {
    let nan = f(0x7fc0_0000);
    let theirs = rust_traj::Quintic::from_words([nan, 0.0, 0.0, 0.0, 0.0, 0.0, 2.0]).peak_abs_jerk();
    let ours = traj::Quintic { c5: nan, c4: 0.0, c3: 0.0, c2: 0.0, c1: 0.0, c0: 0.0, t_end: 2.0 };
    both(traj::quintic_peak_abs_jerk(ours), theirs, 0x7f80_0000);
    let (mut image, input) = fresh();
    put(&mut image, 20, 0x7fc0_0000);
    let with_peak = |bits: u32| {
        let mut image = image;
        put(&mut image, 96, bits);
        archives::tick(&mut image, &input, &mut [0; ANSWER])
    };
    assert_eq!((with_peak(0x7fc0_0000), with_peak(0x7f80_0000)), (4, 0));
}

/// The Rust makes a pass-through of the first pair, and a filter of the second.
#[test]
fn a_set_up_that_would_pass_through_is_refused() {
    let set_up = |fc: u32, fs: u32| {
        let mut set_up = [0; SETUP];
        [(48, fc), (49, fs)].iter().for_each(|(at, bits)| put(&mut set_up, *at, *bits));
        archives::setup(&mut [0; IMAGE], &set_up)
    };
    assert_eq!((set_up(0, 0x447a_0000), set_up(0x7e96_7699, 0x7f61_b1e6)), (11, 0));
    let words = |fc: u32, fs: u32| rust_adrc::Biquad::lowpass(f(fc), f(fs)).words()[..5].to_vec();
    assert_eq!(words(0, 0x447a_0000), [1.0, 0.0, 0.0, 0.0, 0.0]);
    assert_ne!(words(0x7e96_7699, 0x7f61_b1e6), [1.0, 0.0, 0.0, 0.0, 0.0]);
}

/// Nine legs that all stay where they are; the earlier release gave 5 (docs/history/requests/08-legs.md).
#[test]
fn nine_legs_are_flown() {
    let (image, input) = fresh();
    let flown = |legs: u32| {
        let mut route = vec![0; 76 * legs as usize + 8];
        let end = route.len() / 4;
        put(&mut route, end - 2, legs);
        put(&mut route, end - 1, 76 * legs);
        archives::route_tick(&mut image.clone(), &input, &route, &mut [0; ANSWER])
    };
    assert_eq!((flown(8), flown(9), flown(32), flown(33)), (0, 0, 0, 5));
}

#[test]
fn the_reduced_error_is_zero_upside_down() {
    let over = Mat3(Vec3(1.0, 0.0, 0.0), Vec3(0.0, -1.0, 0.0), Vec3(0.0, 0.0, -1.0));
    let down = Vec3(0.0, 0.0, 1.0);
    let (ours, theirs) =
        (geo::geoatt_attitude_error_reduced(over, down), rust_geo::GeoAtt::attitude_error_reduced(&rows(over), array(down)));
    for (x, y) in array(ours).into_iter().zip(theirs) {
        assert_eq!([x, y], [0.0, 0.0]);
    }
    // e_z x v is (-v_y, v_x, 0)
    let aside = geo::geoatt_attitude_error_reduced(LEVEL, Vec3(0.6, 0.3, 0.7));
    assert!(aside.0 > 0.0 && aside.1 < 0.0);
}

#[test]
fn some_sets_that_are_not_finite_leave_a_margin() {
    let margin = |k_r, psi_max, psi| {
        let ours = geo::recoverableset_margin(RecoverableSet { k_r, lambda_j: 1.0, psi_max }, psi, 1.0);
        (ours, rust_geo::RecoverableSet { k_r, lambda_j: 1.0, psi_max }.margin(psi, 1.0))
    };
    for psi_max in [f32::NAN, f32::INFINITY] {
        let (ours, theirs) = margin(1.0, psi_max, 0.25);
        assert!(ours.is_finite());
        both(ours, theirs, theirs.to_bits());
    }
    let (ours, theirs) = margin(f32::INFINITY, 1.75, 0.25);
    both(ours, theirs, 1.5f32.to_bits());
}

#[test]
fn the_edge_of_the_set_counts_as_recoverable() {
    // psi is psi_max itself, which the comment's strict sign leaves out; and so is the squared rate its bound
    for (psi, e_omega_sq) in [(1.75, 0.0), (1.0, 2.0)] {
        let ours = RecoverableSet { k_r: 1.0, lambda_j: 1.0, psi_max: 1.75 };
        let theirs = rust_geo::RecoverableSet { k_r: 1.0, lambda_j: 1.0, psi_max: 1.75 };
        both(geo::recoverableset_margin(ours, psi, e_omega_sq), theirs.margin(psi, e_omega_sq), 0);
        assert_eq!([geo::recoverableset_recoverable(ours, psi, e_omega_sq), theirs.recoverable(psi, e_omega_sq)], [true; 2]);
    }
}

#[test]
fn thresholds_are_mended_beyond_what_the_comment_says() {
    let set = RecoverableSet { k_r: 1.0, lambda_j: 1.0, psi_max: 1.75 };
    let rust = rust_geo::RecoverableSet { k_r: 1.0, lambda_j: 1.0, psi_max: 1.75 };
    let large = f(0x7f00_0000);
    for (enter, exit, mended) in [(0.25, f32::INFINITY, 0.5), (large, 1.0, f32::INFINITY), (large, f32::INFINITY, f32::INFINITY)] {
        let mut ours = geo::simplexshield_new(set, enter, exit);
        assert_eq!(ours.exit.to_bits(), f32::to_bits(mended));
        // and so the planner flies, or never does
        let mut theirs = rust_geo::SimplexShield::new(rust, enter, exit);
        let (agile, fallback) = (BodyRate(Vec3(1.0, 1.0, 1.0)), BodyRate(ZERO));
        for margin in [mended.min(f32::MAX), f32::MAX] {
            let (now, rusts) = (geo::simplexshield_step(ours, margin, agile, fallback), theirs.step(margin, [1.0; 3], [0.0; 3]));
            assert_eq!(now.fallback, rusts.1);
            ours = now.shield;
        }
        assert_eq!(ours.engaged, mended.is_infinite());
    }
}

#[test]
fn a_zero_quaternion_counts_as_level() {
    let ours = geo::quat_to_rotmat(Quat(0.0, 0.0, 0.0, 0.0));
    assert_eq!([rows(ours), rust_geo::quat_to_rotmat([0.0; 4])], [rows(LEVEL); 2]);
    both(geo::geoatt_psi(ours, LEVEL), rust_geo::GeoAtt::psi(&rows(ours), &rows(LEVEL)), 0);
}

/// Our quaternion of three angles, which is the Rust's by bits.
fn quaternion(roll: f32, pitch: f32, yaw: f32) -> [f32; 4] {
    let q = pos::euler_to_quaternion(roll, pitch, yaw);
    let ours = [q.0, q.1, q.2, q.3];
    for (x, y) in ours.into_iter().zip(rust_pos::euler_to_quaternion(roll, pitch, yaw)) {
        both(x, y, x.to_bits());
    }
    ours
}

#[test]
fn an_angle_that_is_not_served_counts_as_level() {
    let beyond = f(0x4680_0001);
    for bad in [beyond, -beyond, f(0x7fc0_0000), f32::INFINITY, f32::NEG_INFINITY] {
        for [roll, pitch, yaw] in [[bad, 0.5, 0.5], [0.5, bad, 0.5], [0.5, 0.5, bad], [4.0, -1.0, bad]] {
            let q = quaternion(roll, pitch, yaw);
            assert_eq!(q, [0.0; 4]);
            // the zeros of a matrix may have a minus sign, which `==` does not see
            let ours = geo::quat_to_rotmat(Quat(q[0], q[1], q[2], q[3]));
            assert_eq!([rows(ours), rust_geo::quat_to_rotmat(q)], [rows(LEVEL); 2]);
        }
    }
    assert_eq!(quaternion(4.0, -1.0, beyond)[0].to_bits(), 0x8000_0000);
    // twice the limit itself is served, and the published kernels serve what is beyond it
    assert_ne!(quaternion(0.0, 0.0, f(0x4680_0000)), [0.0; 4]);
    let (sine, cosine) = (published::sinf(beyond * 0.5), published::cosf(beyond * 0.5));
    assert!((sine * sine + cosine * cosine - 1.0).abs() < 1e-6);
}

#[test]
fn a_quintic_is_not_finite_everywhere() {
    let steep = traj::Quintic { c5: f(0x7f7f_ffff), c4: 0.0, c3: 0.0, c2: 0.0, c1: 0.0, c0: 0.0, t_end: 2.0 };
    let theirs = rust_traj::Quintic::from_words([steep.c5, 0.0, 0.0, 0.0, 0.0, 0.0, 2.0]).eval(2.0);
    let ours = traj::quintic_eval(steep, 2.0);
    both(ours.p, theirs.p, 0x7f80_0000);
    both(ours.v, theirs.v, 0x7f80_0000);
}

#[test]
fn infinite_time_is_time_zero() {
    let (ours, theirs) = (traj::quintic_new(1.0, 2.0, 3.0, 4.0, 5.0, 6.0, 2.0), rust_traj::Quintic::new(1.0, 2.0, 3.0, 4.0, 5.0, 6.0, 2.0));
    both(traj::quintic_eval(ours, f32::INFINITY).p, theirs.eval(f32::INFINITY).p, 1.0f32.to_bits());
}

#[test]
fn an_end_before_the_start_does_not_panic() {
    let words = [1.0, 1.0, 1.0, 1.0, 1.0, 1.0, -1.0];
    assert!(std::panic::catch_unwind(|| rust_traj::Quintic::from_words(words).eval(0.5)).is_err());
    let [c5, c4, c3, c2, c1, c0, t_end] = words;
    // at -1, the end itself
    assert_eq!(traj::quintic_eval(traj::Quintic { c5, c4, c3, c2, c1, c0, t_end }, 0.5).p, 0.0);
}

#[test]
fn the_clock_stands_still_after_hours() {
    let (mut ours, mut theirs) = (traj::refgovernor_new(1.0, 3.0, 0.25), rust_traj::RefGovernor::new(1.0, 3.0, 0.25));
    let mut ticks = 0u32;
    let mut coarse = 0.0;
    while ours.s < 32_768.0 {
        let before = ours.s;
        ours = traj::refgovernor_advance(ours, 0.0, 1e-3).governor;
        both(ours.s, theirs.advance(0.0, 1e-3), ours.s.to_bits());
        if before == 16_384.0 {
            coarse = ours.s - before;
        }
        ticks += 1;
    }
    assert_eq!((ticks, coarse), (25_150_895, 0.001953125));
    both(traj::refgovernor_advance(ours, 0.0, 1e-3).time, theirs.advance(0.0, 1e-3), 32_768.0f32.to_bits());
}

/// Direct form I keeps its last two inputs and outputs as they are; form II transposed keeps sums of them.
#[test]
fn a_biquad_is_in_direct_form_one() {
    let (mut ours, mut theirs) = (adrc::biquad_lowpass(80.0, 1000.0), rust_adrc::Biquad::lowpass(80.0, 1000.0));
    let mut given = Vec::new();
    for x in [1.0f32, -2.0, 0.5, 3.0] {
        let filtered = adrc::biquad_filter(ours, x);
        both(filtered.y, theirs.filter(x), filtered.y.to_bits());
        ours = filtered.biquad;
        given.push((x, filtered.y));
    }
    let [.., (x2, y2), (x1, y1)] = given[..] else { unreachable!("four were given") };
    assert_eq!([ours.x1, ours.x2, ours.y1, ours.y2], [x1, x2, y1, y2]);
    assert_eq!(theirs.words()[5..], [x1, x2, y1, y2]);
}

#[test]
fn a_pass_through_loses_a_sign() {
    both(adrc::biquad_filter(adrc::biquad_passthrough(), -0.0).y, rust_adrc::private::passthrough().filter(-0.0), 0);
}

#[test]
fn a_low_pass_whose_angle_overflows() {
    let (fc, fs) = (f(0x7e96_7699), f(0x7f61_b1e6));
    assert_eq!([fc, fs], [1e38, 3e38]);
    let ours = adrc::biquad_lowpass(fc, fs);
    let theirs = rust_adrc::Biquad::lowpass(fc, fs).words();
    for (ours, theirs, expected) in [
        (ours.b0, theirs[0], 0.5),
        (ours.b1, theirs[1], 1.0),
        (ours.b2, theirs[2], 0.5),
        (ours.a1, theirs[3], -0.0),
        (ours.a2, theirs[4], 1.0f32),
    ] {
        both(ours, theirs, expected.to_bits());
    }
}

#[test]
fn a_low_pass_whose_cut_off_is_too_low_answers_zero() {
    let (fc, fs) = (f(0x3cf5_c28f), f(0x447a_0000));
    assert_eq!([fc, fs], [0.03, 1000.0]);
    let (mut ours, mut theirs) = (adrc::biquad_lowpass(fc, fs), rust_adrc::Biquad::lowpass(fc, fs));
    assert_eq!(([ours.b0, ours.b1, ours.b2], &theirs.words()[..3]), ([0.0; 3], &[0.0; 3][..]));
    for k in 0..100_000u32 {
        let x = 20.0 * (k as f32 * 0.01).sin();
        let filtered = adrc::biquad_filter(ours, x);
        assert_eq!((filtered.y, theirs.filter(x)), (0.0, 0.0));
        ours = filtered.biquad;
    }
    // the page's bound, fs / 25586: on either side of it
    let open = |fc: f32| adrc::biquad_lowpass(fc, fs).b0 != 0.0;
    assert_eq!([open(fs / 25_586.0 * 0.9999), open(fs / 25_586.0 * 1.0001)], [false, true]);
}

#[test]
fn bounds_and_fractions_of_what_is_not_finite() {
    for x in [f32::NAN, f32::INFINITY, f32::NEG_INFINITY] {
        both(adrc::clamp_sym(x, 2.0), rust_adrc::private::clamp_sym(x, 2.0), 0);
    }
    let gains = adrc::adrcgains_with_tau(4.0, 2.0, 2.0, 0.0);
    let mut theirs = rust_adrc::AdrcAxis::new(rust_adrc::AdrcGains::with_tau(4.0, 2.0, 2.0, 0.0));
    theirs.set_delivered_fraction(f(0xff80_0000));
    let ours = adrc::adrcaxis_set_delivered_fraction(adrc::adrcaxis_new(gains), f(0xff80_0000));
    both(ours.u_delivered_frac, theirs.words()[4], 1.0f32.to_bits());
}

#[test]
fn an_observer_that_runs_backwards_counts_as_stable() {
    let gains = adrc::AdrcGains { omega_o: -40.0, omega_c: 2.0, b0: 2.0, tau: 0.0 };
    assert!(adrc::adrcgains_eso_dt_stable(gains, 1e-3, 0.8));
    assert!(rust_adrc::AdrcGains::from_words([-40.0, 2.0, 2.0, 0.0]).eso_dt_stable(1e-3, 0.8));
}
