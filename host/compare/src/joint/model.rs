//! What is expected of set-up, tick, route tick and exchange: the Rust's own objects, made by its constructors, and its own calls in the order of document
//! 01's section "The joint tick", with document 02's requests Four, Six and Seven. What stands in quotes is theirs; docs/REQUEST.md retells it. What is refused
//! is in `refusal`, which leg of a route is flown in `route`. Each step is a method of a trait. `Right` takes all of them as they stand.

use super::bytes::{Put, Take, PEAKS};
use super::frames::{attitude, less, product, times};
pub use super::image::{Answer, Flight, Input, Profile};
use super::lent::Lending;
use super::refusal::Refusals;
use super::route::{segment, Legs, Source};
use super::Call;
use oracle::adrc::{AdrcGains, AdrcRate, GyroLpf};
use oracle::geo::private::{dot, sanitise3};
use oracle::geo::{self, GeoAtt, GeoGains, Mat3, RecoverableSet, SimplexShield, Vec3};
use oracle::traj::{RefGovernor, Sample3, Segment3};

/// The fallback, and how far it is to go.
pub struct Guidance {
    pub fallback: Vec3,
    pub psi: f32,
    pub margin: f32,
}

/// All that stands here, and nothing else.
pub struct Right;

impl Refusals for Right {}
impl Legs for Right {}
impl Steps for Right {}

pub trait Steps: Legs {
    /// A tick on the image's segment or on a route: document 01's order, a line a step.
    #[inline]
    fn tick(&self, flight: &mut Flight, source: &Source, i: &Input) -> Answer {
        self.set_fractions(flight, i);
        let omega = self.filter(flight, i);
        let time = self.advance(flight, i);
        let mut sample = self.sample(flight, source, time);
        self.clean(&mut sample);
        let guidance = self.guide(flight, i, omega, &sample);
        let (command, flag) = self.pick(flight, guidance.margin, self.planner(flight, i), guidance.fallback);
        let torque = self.follow(flight, i, omega, command);
        Answer { torque, command, flag, time, guidance }
    }

    /// "set the fractions"; with a rotor lost "the third ADRC axis is left as it was, its fraction included".
    #[inline]
    fn set_fractions(&self, flight: &mut Flight, i: &Input) {
        match flight.profile {
            Profile::Whole => flight.rate.set_delivered_fraction(i.fraction),
            Profile::LostRotor => {
                let [mut roll, mut pitch, yaw] = flight.axes();
                roll.set_delivered_fraction(i.fraction[0]);
                pitch.set_delivered_fraction(i.fraction[1]);
                flight.set_axes([roll, pitch, yaw]);
            }
        }
    }

    /// "filter the gyro"
    #[inline]
    fn filter(&self, flight: &mut Flight, i: &Input) -> Vec3 {
        flight.lpf.filter(i.gyro)
    }

    /// "advance the governor"
    #[inline]
    fn advance(&self, flight: &mut Flight, i: &Input) -> f32 {
        flight.governor.advance(i.track_err, i.dt)
    }

    /// "evaluate the segment there", or the leg of the route
    #[inline]
    fn sample(&self, flight: &Flight, source: &Source, time: f32) -> Sample3 {
        let (segment, at) = self.flown(flight, source, time);
        segment.eval(at)
    }

    /// "at its duration (the first axis's t_end) if the time is +infinity"
    #[inline]
    fn flown<'a>(&self, flight: &'a Flight, source: &'a Source, time: f32) -> (&'a Segment3, f32) {
        match source {
            Source::Segment if time == f32::INFINITY => (&flight.segment, flight.segment.duration()),
            Source::Segment => (&flight.segment, time),
            Source::Route(route) => {
                let place = self.place(route, time);
                (&route.legs[place.leg], place.at)
            }
        }
    }

    /// "make non-finite acceleration and jerk zero"
    #[inline]
    fn clean(&self, sample: &mut Sample3) {
        sample.acc = sanitise3(sample.acc);
        sample.jerk = sanitise3(sample.jerk);
    }

    /// By the old rules or, request Six, toward the thrust axis alone.
    #[inline]
    fn guide(&self, flight: &Flight, i: &Input, omega: Vec3, sample: &Sample3) -> Guidance {
        match flight.profile {
            Profile::Whole => self.guide_whole(flight, i, omega, sample),
            Profile::LostRotor => self.guide_lost_rotor(flight, i, omega, sample),
        }
    }

    #[inline]
    fn guide_whole(&self, flight: &Flight, i: &Input, omega: Vec3, sample: &Sample3) -> Guidance {
        // "build R and R_d"
        let r = geo::quat_to_rotmat(i.q);
        let r_d = attitude(sample.acc, i.yaw);
        let ahead = r_d.and(geo::flatness_omega_ff(sample.acc, sample.jerk, i.yaw, i.yaw_rate));
        let fallback = self.fallback(flight.controller.desired_rate(i.q, sample.acc, i.yaw), ahead);
        let Some(r_d) = r_d else { return self.nowhere(fallback) };
        let psi = GeoAtt::psi(&r, &r_d);
        let error = self.rate_error(omega, &r, &r_d, ahead);
        Guidance { fallback, psi, margin: self.margin(flight, psi, dot(error, error)) }
    }

    /// "If there is no R_d the margin is minus infinity and the psi word NaN"; "where the thrust axis refuses, the fallback is zero, psi is NaN and the
    /// margin minus infinity".
    #[inline]
    fn nowhere(&self, fallback: Vec3) -> Guidance {
        Guidance { fallback, psi: f32::NAN, margin: f32::NEG_INFINITY }
    }

    /// "`desired_rate` plus `flatness_omega_ff`, without the sum where the latter refuses, or takes an R_d and there is none"
    #[inline]
    fn fallback(&self, desired_rate: Vec3, ahead: Option<Vec3>) -> Vec3 {
        match ahead {
            Some(ff) => [desired_rate[0] + ff[0], desired_rate[1] + ff[1], desired_rate[2] + ff[2]],
            None => desired_rate,
        }
    }

    /// Request Four: "the filtered rate less R transposed times R_d times the feedforward, matrix product first, then the vector; where the feedforward
    /// refuses, the old rule holds".
    #[inline]
    fn rate_error(&self, omega: Vec3, r: &Mat3, r_d: &Mat3, ahead: Option<Vec3>) -> Vec3 {
        match ahead {
            Some(ff) => less(omega, times(&product(r, r_d), ff)),
            None => omega,
        }
    }

    /// "The margin takes psi and the squared length"
    #[inline]
    fn margin(&self, flight: &Flight, psi: f32, squared: f32) -> f32 {
        flight.set().margin(psi, squared)
    }

    /// Request Six: "the error is `attitude_error_reduced` toward the thrust axis", "psi is 1 less the dot product of R's third column with that axis", "R_d
    /// isn't built and yaw isn't read", "the margin's squared rate is that of the first two filtered components".
    #[inline]
    fn guide_lost_rotor(&self, flight: &Flight, i: &Input, omega: Vec3, sample: &Sample3) -> Guidance {
        let Some(b3) = geo::thrust_axis_ned(sample.acc) else { return self.nowhere([0.0; 3]) };
        let r = geo::quat_to_rotmat(i.q);
        let fallback = self.fallback_lost_rotor(flight, GeoAtt::attitude_error_reduced(&r, b3));
        let psi = 1.0 - dot([r[0][2], r[1][2], r[2][2]], b3);
        let margin = self.margin(flight, psi, omega[0] * omega[0] + omega[1] * omega[1]);
        Guidance { fallback, psi, margin }
    }

    /// "The fallback's first two components are -k_r times the error, the third is zero, with no feedforward."
    #[inline]
    fn fallback_lost_rotor(&self, flight: &Flight, error: Vec3) -> Vec3 {
        let [k_r, ..] = flight.controller.words();
        [-k_r[0] * error[0], -k_r[1] * error[1], 0.0]
    }

    /// With a rotor lost "a planner's third component is made zero".
    #[inline]
    fn planner(&self, flight: &Flight, i: &Input) -> Vec3 {
        match flight.profile {
            Profile::Whole => i.agile,
            Profile::LostRotor => [i.agile[0], i.agile[1], 0.0],
        }
    }

    /// "The shield picks, non-finite numbers of the pick made +0.0"
    #[inline]
    fn pick(&self, flight: &mut Flight, margin: f32, planner: Vec3, fallback: Vec3) -> (Vec3, bool) {
        flight.shield.step(margin, planner, fallback)
    }

    /// "ADRC ticks on the filtered gyro, the pick and dt"; with a rotor lost, of the third axis "its torque is zero".
    #[inline]
    fn follow(&self, flight: &mut Flight, i: &Input, omega: Vec3, command: Vec3) -> Vec3 {
        match flight.profile {
            Profile::Whole => flight.rate.tick(omega, command, i.dt),
            Profile::LostRotor => {
                let [mut roll, mut pitch, yaw] = flight.axes();
                let torque = [roll.tick(omega[0], command[0], i.dt), pitch.tick(omega[1], command[1], i.dt), 0.0];
                flight.set_axes([roll, pitch, yaw]);
                torque
            }
        }
    }

    /// Request Seven: the call "exchanges the segment in flight from 19 words and sets governor time to 0"; it "leaves shield, ADRC and filters as they were".
    fn exchange(&self, flight: &mut Flight, leg: &[u8]) {
        flight.segment = segment(&mut Take::from(leg, 0));
        flight.governor.reset();
    }

    /// The image, with the peaks: "set-up and this call write the peaks, ticks keep them".
    fn write(&self, flight: &Flight, image: &mut [u8]) {
        flight.write_but_peaks(image);
        Put::from(image, PEAKS).floats(self.peaks(&flight.segment));
    }

    fn peaks(&self, segment: &Segment3) -> [f32; 3] {
        segment.peak_abs_jerk()
    }

    /// A call that is not refused, on the bytes that are lent to it.
    fn act(&self, call: Call, Lending { image, input, route, answer }: &mut Lending<'_>) {
        match call {
            Call::SetUp => self.write(&Flight::set_up(input), image),
            Call::Tick | Call::RouteTick => {
                let mut flight = Flight::from_image(image);
                self.tick(&mut flight, &self.source(call, route), &Input::read(input)).write(answer);
                flight.write_but_peaks(image);
            }
            Call::Exchange => {
                let mut flight = Flight::from_image(image);
                self.exchange(&mut flight, input);
                self.write(&flight, image);
            }
        }
    }
}

impl Flight {
    /// Set-up: "every bit pattern is taken; the constructors mend it".
    pub fn set_up(input: &[u8]) -> Self {
        let mut i = Take::from(input, 0);
        let controller = GeoAtt::new(GeoGains { k_r: i.floats(), k_omega: i.floats(), j: i.floats() });
        let set = RecoverableSet::new(i.float(), i.float(), i.float());
        let shield = SimplexShield::new(set, i.float(), i.float());
        let governor = RefGovernor::new(i.float(), i.float(), i.float());
        let segment = segment(&mut i);
        let rate = AdrcRate::new(i.axes().map(|[omega_o, omega_c, b0, tau]| AdrcGains::with_tau(omega_o, omega_c, b0, tau)));
        let lpf = GyroLpf::new(i.float(), i.float());
        Flight { controller, shield, governor, segment, rate, lpf, profile: Profile::of(i.word()) }
    }
}

/// A call on bytes: the number that it gives.
pub fn call(call: Call, lent: &mut Lending<'_>) -> u32 {
    let number = Right.refused(call, lent);
    if number == 0 {
        Right.act(call, lent);
    }
    number
}
