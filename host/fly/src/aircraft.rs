//! A quadrotor of about a kilogram: a rigid body, motors that lag and saturate, a gyro with noise, an attitude from that gyro.

use crate::random::Random;
use crate::vector::{add, axes, cross, dot, error, scale, sub, turned, Quat, M3, V3};

pub const GRAVITY: f64 = 9.81;

/// Inertia, kg m².
const J: V3 = [0.0217, 0.0217, 0.04];
/// Angular acceleration for one unit of torque, rad/s²; the controller believes 60, 60, 18.
const EFFECT: V3 = [55.0, 55.0, 16.5];
/// The motors' lag, s, and that of the thrust.
const LAG: V3 = [0.0125, 0.0125, 0.025];
const THRUST_LAG: f64 = 0.03;
/// The most that the motors give.
const MOST: V3 = [1.0, 1.0, 0.5];
/// A load that hangs a little off the middle, rad/s².
const IMBALANCE: V3 = [0.4, -0.3, 0.1];
/// How fast the estimate is drawn to the truth, 1/s (gravity and a compass would do it).
const DRAWN: f64 = 0.5;
/// Drag, 1/s; and that of a spin about the third axis, which is told only where there is one.
const DRAG: f64 = 0.15;
const SPIN_DRAG: f64 = 0.8;
/// The most that one rotor lifts, m/s².
const LIFT: f64 = 0.5 * GRAVITY;
/// The part of the lift of the side rotors that yaw may take.
const YAW_TAKES: f64 = 0.15;

const SUBSTEPS: usize = 4;

pub struct Aircraft {
    pub position: V3,
    pub velocity: V3,
    attitude: Quat,
    rate: V3,
    /// What the motors give now.
    torque: V3,
    thrust: f64,
    estimate: Quat,
    pub rotors: Rotors,
}

/// At the ends of a cross: front and rear turn one way, left and right the other.
#[derive(Clone, Copy, PartialEq, Eq)]
pub enum Rotors {
    Four,
    /// The rear one has stopped, and they are still driven as four.
    Stopped,
    /// It has been noticed: the three are driven so as to lift and to keep level.
    Three,
}

impl Rotors {
    /// The torque and the thrust that they give of what is asked.
    fn give(self, torque: V3, thrust: f64) -> (V3, f64) {
        let [roll, pitch, yaw]: V3 = std::array::from_fn(|k| torque[k].clamp(-MOST[k], MOST[k]));
        match self {
            Rotors::Four => ([roll, pitch, yaw], thrust.clamp(0.0, 4.0 * LIFT)),
            Rotors::Stopped => {
                let lift = |part: f64| (0.25 * thrust + LIFT * part).clamp(0.0, LIFT);
                let (front, left, right) = (lift(0.5 * pitch + yaw), lift(0.5 * roll - yaw), lift(-0.5 * roll - yaw));
                ([(left - right) / LIFT, front / LIFT, 0.5 * MOST[2] * (front - left - right) / LIFT], front + left + right)
            }
            // pitch is the front one's alone, which only lifts; the sides share the rest, with the roll between them; where they turn against
            // nothing, yaw can but ask them for less
            Rotors::Three => {
                let (front, half) = (LIFT * pitch.max(0.0), 0.5 * LIFT * roll.abs());
                let less = YAW_TAKES * LIFT * yaw.abs() / MOST[2];
                let side = (0.5 * (thrust - front) - less).clamp(half, LIFT - half);
                ([roll, front / LIFT, MOST[2] * (0.5 * front - side) / LIFT], front + 2.0 * side)
            }
        }
    }
}

/// What the sensors say.
pub struct Sensed {
    pub gyro: V3,
    pub attitude: Quat,
}

impl Aircraft {
    /// Level and still, with this heading.
    pub fn at(position: V3, yaw: f64) -> Self {
        let half = (0.5 * yaw) as f32;
        let level = [f64::from(fosavalo::cosf(half)), 0.0, 0.0, f64::from(fosavalo::sinf(half))];
        Aircraft {
            position,
            velocity: [0.0; 3],
            attitude: level,
            rate: [0.0; 3],
            torque: [0.0; 3],
            thrust: GRAVITY,
            estimate: level,
            rotors: Rotors::Four,
        }
    }

    /// Reads the gyro, with noise of this deviation, and carries the estimate on.
    pub fn sense(&mut self, gyro_noise: f64, dt: f64, random: &mut Random) -> Sensed {
        let gyro = add(self.rate, random.normal3(gyro_noise));
        let off = error(&axes(self.estimate), &axes(self.attitude));
        self.estimate = turned(self.estimate, scale(dt, sub(gyro, scale(DRAWN, off))));
        Sensed { gyro, attitude: self.estimate }
    }

    /// Flies for dt with these commands; which part of the torque the motors can give.
    pub fn fly(&mut self, torque: V3, thrust: f64, dt: f64) -> V3 {
        let (given, thrust) = self.rotors.give(torque, thrust);
        let h = dt / SUBSTEPS as f64;
        for _ in 0..SUBSTEPS {
            let spin: V3 = std::array::from_fn(|k| J[k] * self.rate[k]);
            let gyroscopic = cross(self.rate, spin);
            let [_, _, down]: M3 = axes(self.attitude);
            let push = add([0.0, 0.0, GRAVITY], scale(-self.thrust, down));
            self.position = add(self.position, scale(h, self.velocity));
            self.velocity = add(self.velocity, scale(h, sub(push, scale(DRAG, self.velocity))));
            self.attitude = turned(self.attitude, scale(h, self.rate));
            for k in 0..3 {
                self.rate[k] += h * (EFFECT[k] * self.torque[k] + IMBALANCE[k] - gyroscopic[k] / J[k]);
                self.torque[k] += h * (given[k] - self.torque[k]) / LAG[k];
            }
            if self.rotors != Rotors::Four {
                self.rate[2] -= h * SPIN_DRAG * self.rate[2];
            }
            self.thrust += h * (thrust - self.thrust) / THRUST_LAG;
        }
        std::array::from_fn(|k| if given[k] == torque[k] { 1.0 } else { given[k] / torque[k] })
    }

    /// One minus the cosine of the tilt.
    pub fn tilt(&self) -> f64 {
        let [_, _, b3] = axes(self.attitude);
        1.0 - b3[2]
    }

    /// How fast it turns about its third axis, rad/s.
    pub fn spin(&self) -> f64 {
        self.rate[2]
    }

    /// The thrust that gives this acceleration downwards, at the tilt as it is.
    pub fn thrust_for(&self, down: f64) -> f64 {
        let [_, _, b3] = axes(self.attitude);
        (GRAVITY - down) / dot(b3, [0.0, 0.0, 1.0]).max(0.5)
    }
}
