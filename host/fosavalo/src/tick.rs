use crate::words::{Put, Take};
use crate::{Refusal, ANSWER_BYTES, TICK_BYTES};
use core::fmt;

/// An angular velocity about the body's axes, rad/s.
#[derive(Clone, Copy, Debug, Default, PartialEq)]
pub struct BodyRate(pub [f32; 3]);

/// What the rate controller asks of the motors about the body's axes, in the unit of [`AdrcGains::b0`](crate::AdrcGains::b0).
#[derive(Clone, Copy, Debug, Default, PartialEq)]
pub struct Torque(pub [f32; 3]);

impl From<[f32; 3]> for BodyRate {
    fn from(axes: [f32; 3]) -> Self {
        BodyRate(axes)
    }
}

impl From<[f32; 3]> for Torque {
    fn from(axes: [f32; 3]) -> Self {
        Torque(axes)
    }
}

/// Whose rate command is flown.
///
/// ```
/// use fosavalo::Pilot::{Fallback, Planner};
///
/// assert_eq!(format!("{Planner:>8}, {Fallback}"), " planner, fallback");
/// ```
#[derive(Clone, Copy, Debug, PartialEq, Eq, Hash)]
pub enum Pilot {
    /// The flag is 0.
    Planner,
    /// The flag is 1.
    Fallback,
}

impl fmt::Display for Pilot {
    fn fmt(&self, f: &mut fmt::Formatter<'_>) -> fmt::Result {
        f.pad(match self {
            Pilot::Planner => "planner",
            Pilot::Fallback => "fallback",
        })
    }
}

/// What a tick is given. Every bit pattern is taken.
///
#[doc = include_str!("axes.md")]
///
/// ```
/// use fosavalo::{BodyRate, TickInput};
///
/// let input = TickInput { planner: [0.0, 0.0, 0.2].into(), yaw: 0.5, ..TickInput::default() };
/// assert_eq!(input.planner, BodyRate([0.0, 0.0, 0.2]));
/// assert_eq!(TickInput::from_bytes(&input.to_bytes()), Ok(input));
/// ```
#[derive(Clone, Copy, Debug, PartialEq)]
pub struct TickInput {
    /// As measured, not filtered.
    pub gyro: BodyRate,
    /// The estimated attitude: a quaternion, w x y z.
    pub attitude: [f32; 4],
    /// How far the aircraft is from the trajectory, in metres.
    pub tracking_error: f32,
    /// The wanted heading, rad. One that is no number, or beyond 8192 in size, leaves no wanted attitude: the fallback flies. With a rotor lost
    /// ([`Profile::LostRotor`](crate::Profile::LostRotor)) neither this nor its rate is read.
    pub yaw: f32,
    /// Its rate, rad/s: commanded turning, which the margin does not count as error.
    pub yaw_rate: f32,
    /// Since the last tick, s.
    pub dt: f32,
    /// What the planner wants.
    pub planner: BodyRate,
    /// Which part of the last answer's torque the motors delivered, 0 to 1 on each axis.
    pub delivered: [f32; 3],
}

impl Default for TickInput {
    /// Level and still at a millisecond's step, the planner wanting nothing, everything delivered.
    fn default() -> Self {
        TickInput {
            gyro: BodyRate::default(),
            attitude: [1.0, 0.0, 0.0, 0.0],
            tracking_error: 0.0,
            yaw: 0.0,
            yaw_rate: 0.0,
            dt: 0.001,
            planner: BodyRate::default(),
            delivered: [1.0; 3],
        }
    }
}

impl TickInput {
    /// The seventeen words.
    pub fn to_bytes(&self) -> [u8; TICK_BYTES] {
        let mut bytes = [0; TICK_BYTES];
        let mut to = Put::to(&mut bytes);
        to.floats(self.gyro.0);
        to.floats(self.attitude);
        to.floats([self.tracking_error, self.yaw, self.yaw_rate, self.dt]);
        to.floats(self.planner.0);
        to.floats(self.delivered);
        bytes
    }

    /// From seventeen words; refused where these are not 68 bytes.
    pub fn from_bytes(bytes: &[u8]) -> Result<Self, Refusal> {
        if bytes.len() != TICK_BYTES {
            return Err(Refusal::InputLength);
        }
        Ok(TickInput::take(&mut Take(bytes)))
    }

    pub(crate) fn take(from: &mut Take) -> Self {
        TickInput {
            gyro: BodyRate(from.floats()),
            attitude: from.floats(),
            tracking_error: from.float(),
            yaw: from.float(),
            yaw_rate: from.float(),
            dt: from.float(),
            planner: BodyRate(from.floats()),
            delivered: from.floats(),
        }
    }
}

/// What a tick answers. Torque and command are finite; the time and the margin are never NaN.
///
#[doc = include_str!("axes.md")]
///
/// ```
/// use fosavalo::{BodyRate, Image, Pilot, SetUp, TickInput};
///
/// // a heading that is no number: nothing is known of the margin, and the fallback stands still
/// let mut image = Image::set_up(&SetUp::falcon_quad())?;
/// let answer = image.tick(&TickInput { yaw: f32::NAN, ..TickInput::default() })?;
/// assert_eq!(answer.pilot, Pilot::Fallback);
/// assert_eq!(answer.command, BodyRate([0.0; 3]));
/// assert_eq!(answer.margin, f32::NEG_INFINITY);
/// assert!(answer.psi.is_nan());
/// # Ok::<(), fosavalo::Refusal>(())
/// ```
#[derive(Clone, Copy, Debug, PartialEq)]
pub struct Answer {
    /// For the motors.
    pub torque: Torque,
    /// The rate that is flown: the pilot's command, its non-finite numbers made zero.
    pub command: BodyRate,
    /// Whose it is.
    pub pilot: Pilot,
    /// The time along the trajectory, s; it may reach +infinity.
    pub time: f32,
    /// One minus the cosine of the attitude's error, with a rotor lost of the thrust axis's; NaN where there is none that is wanted.
    pub psi: f32,
    /// What is left before the set is lost; minus infinity where that is not known.
    pub margin: f32,
}

impl Answer {
    /// The ten words.
    pub fn to_bytes(&self) -> [u8; ANSWER_BYTES] {
        let mut bytes = [0; ANSWER_BYTES];
        let mut to = Put::to(&mut bytes);
        to.floats(self.torque.0);
        to.floats(self.command.0);
        to.word(u32::from(self.pilot == Pilot::Fallback));
        to.floats([self.time, self.psi, self.margin]);
        bytes
    }

    /// From ten words; refused where these are not 40 bytes. A flag that is neither 0 nor 1, which no tick writes, counts as the
    /// fallback's.
    pub fn from_bytes(bytes: &[u8]) -> Result<Self, Refusal> {
        if bytes.len() != ANSWER_BYTES {
            return Err(Refusal::AnswerLength);
        }
        Ok(Answer::take(&mut Take(bytes)))
    }

    pub(crate) fn take(from: &mut Take) -> Self {
        Answer {
            torque: Torque(from.floats()),
            command: BodyRate(from.floats()),
            pilot: if from.word() == 0 { Pilot::Planner } else { Pilot::Fallback },
            time: from.float(),
            psi: from.float(),
            margin: from.float(),
        }
    }
}
