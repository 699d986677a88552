//! A planner that nobody has proved anything of: it holds the path, and looks about as it likes.

use crate::aircraft::GRAVITY;
use crate::pass::Heading;
use crate::random::Random;
use crate::vector::{add, axes, cross, dot, error, scale, sub, unit, Quat, M3, V3};
use fosavalo::Sample;

/// Position and velocity gains, 1/s² and 1/s, and the most that they may ask for, m/s².
const HOLD: f64 = 1.2;
const DAMP: f64 = 1.8;
const MOST: f64 = 1.0;
/// Attitude gains, 1/s.
const TURN: V3 = [5.0, 5.0, 1.5];
/// The fastest that it pans, rad/s.
const FASTEST: f64 = 0.32;

/// Where the trajectory is.
#[derive(Clone, Copy)]
pub struct Reference {
    pub position: V3,
    pub velocity: V3,
    pub acceleration: V3,
}

impl From<Sample> for Reference {
    fn from(Sample { position, velocity, acceleration, .. }: Sample) -> Self {
        let [position, velocity, acceleration] = [position, velocity, acceleration].map(|v| v.map(f64::from));
        Reference { position, velocity, acceleration }
    }
}

impl Reference {
    /// As it goes while its clock runs at this part of its pace.
    pub fn at_pace(self, pace: f64) -> Self {
        let (velocity, acceleration) = (scale(pace, self.velocity), scale(pace * pace, self.acceleration));
        Reference { velocity, acceleration, ..self }
    }
}

pub struct Planner {
    /// How far off the wanted heading it looks, where to it pans, how fast, and how long it stays there.
    aim: f64,
    to: f64,
    speed: f64,
    stay: f64,
}

impl Planner {
    pub fn new(random: &mut Random) -> Self {
        Planner { aim: 0.0, to: 0.0, speed: 0.0, stay: random.range(0.5, 1.5) }
    }

    /// The acceleration that holds the path.
    pub fn wanted(position: V3, velocity: V3, reference: &Reference) -> V3 {
        let off = add(scale(HOLD, sub(reference.position, position)), scale(DAMP, sub(reference.velocity, velocity)));
        add(reference.acceleration, off.map(|x| x.clamp(-MOST, MOST)))
    }

    /// The body rate that it wants: as it is asked, or looking about.
    pub fn toward(&mut self, heading: &Heading, attitude: Quat, wanted: V3, dt: f64, random: &mut Random) -> V3 {
        match heading.own {
            true => Planner::rate_of(attitude, wanted, heading.yaw, heading.turn),
            false => self.rate(attitude, wanted, heading.yaw, dt, random),
        }
    }

    /// Looking about the heading.
    pub fn rate(&mut self, attitude: Quat, wanted: V3, yaw: f64, dt: f64, random: &mut Random) -> V3 {
        let pan = self.pan(dt, random);
        Planner::rate_of(attitude, wanted, yaw + self.aim, pan)
    }

    /// The body rate that holds this heading, which turns so fast.
    pub fn rate_of(attitude: Quat, wanted: V3, yaw: f64, turn: f64) -> V3 {
        let off = error(&axes(attitude), &looking(wanted, yaw));
        [-TURN[0] * off[0], -TURN[1] * off[1], (turn - TURN[2] * off[2]).clamp(-FASTEST, FASTEST)]
    }

    /// The body rate that brings it level, with no heading to hold.
    pub fn rate_level(attitude: Quat) -> V3 {
        let own = axes(attitude);
        let off = cross([0.0, 0.0, 1.0], own[2]);
        [-TURN[0] * dot(off, own[0]), -TURN[1] * dot(off, own[1]), 0.0]
    }

    /// Moves the aim; how fast it moves.
    fn pan(&mut self, dt: f64, random: &mut Random) -> f64 {
        let left = self.to - self.aim;
        if left.abs() > self.speed * dt {
            let pan = self.speed * left.signum();
            self.aim += pan * dt;
            return pan;
        }
        self.stay -= dt;
        if self.stay <= 0.0 {
            let side = if self.to > 0.0 { -1.0 } else { 1.0 };
            (self.to, self.speed) = (side * random.range(0.1, 0.6), random.range(0.1, FASTEST));
            self.stay = random.range(0.3, 1.5);
        }
        0.0
    }
}

/// The attitude that has this acceleration and this heading.
fn looking(acceleration: V3, yaw: f64) -> M3 {
    let down = unit(sub([0.0, 0.0, GRAVITY], acceleration));
    let right = unit(cross(down, [f64::from(fosavalo::cosf(yaw as f32)), f64::from(fosavalo::sinf(yaw as f32)), 0.0]));
    [cross(right, down), right, down]
}
