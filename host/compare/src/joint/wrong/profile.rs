//! Versions of request Six: the profiles.

use super::{act_and_then, is_tick, keep, versions};
use crate::joint::bytes::{put, word, IMAGE, PROFILE, SETUP_PROFILE};
use crate::joint::frames::attitude;
use crate::joint::lent::Lending;
use crate::joint::model::{Answer, Flight, Guidance, Input, Profile, Right, Steps};
use crate::joint::refusal::Refusals;
use crate::joint::route::Source;
use crate::joint::Call;
use oracle::adrc::{AdrcAxis, AdrcRate, GyroLpf};
use oracle::geo::private::dot;
use oracle::geo::{self, GeoAtt, Mat3, Vec3};
use oracle::traj::Sample3;

versions! {
    /// Those of the profiles.
    WRONG_PROFILE {
        ThirdRate: Steps = "the third rate in the squared one";
        ErrorSquared: Steps = "the rate less what is commanded, squared, with a rotor lost";
        ThirdUnfiltered: Steps = "the third gyro not filtered";
        WholeError: Steps = "the whole attitude error with a rotor lost";
        SetGain: Steps = "the fallback with the set's k_r";
        PlusError: Steps = "plus k_r times the reduced error";
        AheadAdded: Steps = "the feedforward added with a rotor lost";
        MinusThird: Steps = "minus k_r times the reduced error's third";
        PsiOfAttitude: Steps = "psi of R_d with a rotor lost";
        YawRead: Steps = "a heading that is no number refused with a rotor lost";
        PlannerThird: Steps = "the planner's third kept";
        ThirdFraction: Steps = "the third fraction set";
        ThirdTicks: Steps = "the third axis ticked, its torque zero";
        ThirdTorque: Steps = "the third torque given, its axis left";
        ThirdNan: Steps = "a NaN of the third axis left as it is";
        ProfileLost: Steps = "a tick that leaves profile 0";
        ProfileUnread: Steps = "the old rules at either profile";
        AnyProfile: Refusals = "any profile taken at a tick";
        AnySetUp: Refusals = "any profile taken at set-up";
        ProfileFirst: Refusals = "10 before 2";
        OldCount: Refusals = "word 0 = 96 taken";
    }
}

/// The right guidance toward the thrust axis, where there is one, and then something else, which is told R and R_d too.
fn guide_and_then(
    flight: &Flight,
    i: &Input,
    omega: Vec3,
    sample: &Sample3,
    then: impl FnOnce(Guidance, &Mat3, Option<Mat3>) -> Guidance,
) -> Guidance {
    let guidance = Right.guide_lost_rotor(flight, i, omega, sample);
    match geo::thrust_axis_ned(sample.acc) {
        Some(_) => then(guidance, &geo::quat_to_rotmat(i.q), attitude(sample.acc, i.yaw)),
        None => guidance,
    }
}

/// The feedforward, which the right guidance has no part in.
fn ahead(i: &Input, sample: &Sample3) -> Option<Vec3> {
    geo::flatness_omega_ff(sample.acc, sample.jerk, i.yaw, i.yaw_rate)
}

impl Steps for ThirdRate {
    fn guide_lost_rotor(&self, flight: &Flight, i: &Input, omega: Vec3, sample: &Sample3) -> Guidance {
        guide_and_then(flight, i, omega, sample, |right, _, _| {
            let margin = Right.margin(flight, right.psi, dot(omega, omega));
            Guidance { margin, ..right }
        })
    }
}

impl Steps for ErrorSquared {
    fn guide_lost_rotor(&self, flight: &Flight, i: &Input, omega: Vec3, sample: &Sample3) -> Guidance {
        guide_and_then(flight, i, omega, sample, |right, r, r_d| {
            let Some(r_d) = r_d else { return right };
            let [x, y, _] = Right.rate_error(omega, r, &r_d, ahead(i, sample));
            let margin = Right.margin(flight, right.psi, x * x + y * y);
            Guidance { margin, ..right }
        })
    }
}

impl Steps for ThirdUnfiltered {
    fn filter(&self, flight: &mut Flight, i: &Input) -> Vec3 {
        let [_, _, third] = flight.lpf.words();
        let omega = Right.filter(flight, i);
        if flight.profile == Profile::LostRotor {
            let [roll, pitch, _] = flight.lpf.words();
            flight.lpf = GyroLpf::from_words([roll, pitch, third]);
        }
        omega
    }
}

impl Steps for WholeError {
    fn guide_lost_rotor(&self, flight: &Flight, i: &Input, omega: Vec3, sample: &Sample3) -> Guidance {
        guide_and_then(flight, i, omega, sample, |right, r, r_d| {
            let error = r_d.map_or([0.0; 3], |r_d| GeoAtt::attitude_error(r, &r_d));
            Guidance { fallback: Right.fallback_lost_rotor(flight, error), ..right }
        })
    }
}

impl Steps for SetGain {
    fn fallback_lost_rotor(&self, flight: &Flight, error: Vec3) -> Vec3 {
        let k_r = flight.set().k_r;
        [-k_r * error[0], -k_r * error[1], 0.0]
    }
}

impl Steps for PlusError {
    fn fallback_lost_rotor(&self, flight: &Flight, error: Vec3) -> Vec3 {
        Right.fallback_lost_rotor(flight, error.map(|e| -e))
    }
}

impl Steps for AheadAdded {
    fn guide_lost_rotor(&self, flight: &Flight, i: &Input, omega: Vec3, sample: &Sample3) -> Guidance {
        guide_and_then(flight, i, omega, sample, |right, _, _| {
            let [x, y, z] = right.fallback;
            let fallback = ahead(i, sample).map_or(right.fallback, |ff| [x + ff[0], y + ff[1], z]);
            Guidance { fallback, ..right }
        })
    }
}

impl Steps for MinusThird {
    fn fallback_lost_rotor(&self, flight: &Flight, error: Vec3) -> Vec3 {
        let ([k_r, ..], [x, y, _]) = (flight.controller.words(), Right.fallback_lost_rotor(flight, error));
        [x, y, -k_r[2] * error[2]]
    }
}

impl Steps for PsiOfAttitude {
    fn guide_lost_rotor(&self, flight: &Flight, i: &Input, omega: Vec3, sample: &Sample3) -> Guidance {
        guide_and_then(flight, i, omega, sample, |right, r, r_d| {
            let psi = r_d.map_or(f32::NAN, |r_d| GeoAtt::psi(r, &r_d));
            let margin = Right.margin(flight, psi, omega[0] * omega[0] + omega[1] * omega[1]);
            Guidance { psi, margin, ..right }
        })
    }
}

impl Steps for YawRead {
    fn guide_lost_rotor(&self, flight: &Flight, i: &Input, omega: Vec3, sample: &Sample3) -> Guidance {
        match attitude(sample.acc, i.yaw) {
            Some(_) => Right.guide_lost_rotor(flight, i, omega, sample),
            None => Right.nowhere([0.0; 3]),
        }
    }
}

impl Steps for PlannerThird {
    fn planner(&self, _: &Flight, i: &Input) -> Vec3 {
        i.agile
    }
}

impl Steps for ThirdFraction {
    fn set_fractions(&self, flight: &mut Flight, i: &Input) {
        flight.rate.set_delivered_fraction(i.fraction);
    }
}

/// With a rotor lost, the third axis's torque, and the axis after it.
fn third(flight: &Flight, i: &Input, omega: Vec3, command: Vec3) -> (f32, [f32; 9]) {
    let mut axis = AdrcAxis::from_words(flight.rate.words()[2]);
    let torque = axis.tick(omega[2], command[2], i.dt);
    (torque, axis.words())
}

impl Steps for ThirdTicks {
    fn follow(&self, flight: &mut Flight, i: &Input, omega: Vec3, command: Vec3) -> Vec3 {
        let (_, axis) = third(flight, i, omega, command);
        let torque = Right.follow(flight, i, omega, command);
        if flight.profile == Profile::LostRotor {
            let [roll, pitch, _] = flight.rate.words();
            flight.rate = AdrcRate::from_words([roll, pitch, axis]);
        }
        torque
    }
}

impl Steps for ThirdTorque {
    fn follow(&self, flight: &mut Flight, i: &Input, omega: Vec3, command: Vec3) -> Vec3 {
        let (own, _) = third(flight, i, omega, command);
        let [x, y, z] = Right.follow(flight, i, omega, command);
        [x, y, if flight.profile == Profile::LostRotor { own } else { z }]
    }
}

impl Steps for ThirdNan {
    fn act(&self, call: Call, lent: &mut Lending<'_>) {
        act_and_then(call, lent, |old, lent| {
            if is_tick(call) && word(old, PROFILE) == 1 {
                keep(lent.image, old, 236..272);
            }
        });
    }
}

impl Steps for ProfileLost {
    fn act(&self, call: Call, lent: &mut Lending<'_>) {
        Right.act(call, lent);
        if is_tick(call) {
            put(lent.image, PROFILE, 0);
        }
    }
}

/// A tick by the old rules, after which the profile is as it was.
pub(super) fn tick_whole(flight: &mut Flight, source: &Source, i: &Input) -> Answer {
    let profile = std::mem::replace(&mut flight.profile, Profile::Whole);
    let answer = Right.tick(flight, source, i);
    flight.profile = profile;
    answer
}

impl Steps for ProfileUnread {
    fn tick(&self, flight: &mut Flight, source: &Source, i: &Input) -> Answer {
        tick_whole(flight, source, i)
    }
}

impl Refusals for AnyProfile {
    fn is_profile(&self, _: u32) -> bool {
        true
    }
}

impl Refusals for AnySetUp {
    fn of_setup(&self, image: usize, input: &[u8]) -> u32 {
        let mut whole = input.to_vec();
        put(&mut whole, SETUP_PROFILE, 0);
        Right.of_setup(image, &whole)
    }
}

impl Refusals for ProfileFirst {
    fn of_setup(&self, image: usize, input: &[u8]) -> u32 {
        match word(input, SETUP_PROFILE) {
            0 | 1 => Right.of_setup(image, input),
            _ if image != IMAGE => 1,
            _ => 10,
        }
    }
}

impl Refusals for OldCount {
    fn is_count(&self, word: u32) -> bool {
        word == 96 || Right.is_count(word)
    }
}
