//! The slow pass above a stage, in a closed loop: six metres to the east in twenty seconds, the camera turning with it.

use crate::aircraft::Aircraft;
use crate::flight::{Flight, Rule};
use crate::planner::{Planner, Reference};
use crate::random::Random;
use crate::vector::{norm, sub, Quat, V3};
use fosavalo::{Answer, BodyRate, Governor, GyroFilter, Image, Pilot, RecoverableSet, Refusal, Route, Segment, SetUp, TickInput, Torque};

pub const SECONDS: f64 = 20.0;
pub const DT: f32 = 0.001;
pub const TICKS: u64 = 20_000;
pub const SEEDS: [u64; 5] = [1, 2, 3, 4, 5];
/// The seed that is drawn.
pub const DRAWN: u64 = 1;

pub const FROM: V3 = [0.0, -3.0, -4.0];
pub const TO: V3 = [0.0, 3.0, -4.0];
/// How fast the wanted heading turns, rad/s: the camera stays on the middle of the stage.
const PAN: f64 = -0.04;

/// What a pass is flown with, as far as the outcome hangs on it.
#[derive(Clone, Copy)]
pub struct Choice {
    pub name: &'static str,
    pub set: RecoverableSet,
    pub enter: f32,
    pub exit: f32,
    /// The gyro filter's cut-off, Hz.
    pub fc: f32,
    /// Deviation of the gyro's noise, rad/s: the sensor's own and the frame's shaking.
    pub gyro_noise: f64,
}

/// The one that is drawn. The set is tight, for the camera: level, the margin is 0.09 less the squared rate error, which is 14 degrees
/// a second at enter and 8 at exit.
pub const SHOWN: Choice = Choice {
    name: "as shown",
    set: RecoverableSet { k_r: 0.0009, lambda_j: 0.04, psi_max: 0.5 },
    enter: 0.03,
    exit: 0.07,
    fc: 200.0,
    gyro_noise: 0.02,
};

/// And others, so that a reader sees what hangs on the choice.
pub const CHOICES: [Choice; 9] = [
    SHOWN,
    Choice { name: "exit 0.06", exit: 0.06, ..SHOWN },
    Choice { name: "filter at 120 Hz", fc: 120.0, ..SHOWN },
    Choice { name: "filter at 400 Hz", fc: 400.0, ..SHOWN },
    Choice { name: "noise 0.03 rad/s", gyro_noise: 0.03, ..SHOWN },
    Choice { name: "noise 0.03 rad/s, 400 Hz", gyro_noise: 0.03, fc: 400.0, ..SHOWN },
    Choice { name: "noise 0.005 rad/s", gyro_noise: 0.005, ..SHOWN },
    Choice { name: "no noise", gyro_noise: 0.0, ..SHOWN },
    // the attitude's error carries the margin, not the rate: 20 degrees at enter, 14 at exit
    Choice {
        name: "a set bounded by the attitude",
        set: RecoverableSet { k_r: 0.6, lambda_j: 0.04, psi_max: 0.12 },
        enter: 0.06,
        exit: 0.09,
        ..SHOWN
    },
];

pub fn set_up(choice: &Choice) -> SetUp {
    SetUp {
        set: choice.set,
        enter: choice.enter,
        exit: choice.exit,
        governor: Governor { err_lo: 0.3, err_hi: 1.5, g_min: 0.25 },
        segment: segment(),
        filter: GyroFilter { fc: choice.fc, fs: 1000.0 },
        ..SetUp::falcon_quad()
    }
}

pub fn title() -> String {
    let Choice { enter, exit, .. } = SHOWN;
    format!("A slow pass above a stage: {SECONDS} s in {TICKS} ticks, enter {enter}, exit {exit}")
}

/// From rest to rest.
fn segment() -> Segment {
    let single = |v: V3| v.map(|x| x as f32);
    Segment { p0: single(FROM), pf: single(TO), t: SECONDS as f32, ..SetUp::falcon_quad().segment }
}

/// Where the trajectory is at a time, by the core.
pub fn reference(time: f32) -> Result<Reference, Refusal> {
    Ok(segment().sample(time)?.into())
}

/// Flies the pass. The noise, the planner's whims and everything else depend on the seed alone.
pub fn fly(choice: &Choice, seed: u64, rule: Rule) -> Result<Flight, Refusal> {
    fly_along(choice, seed, rule, None, Way { reference, heading }, |_, _| {})
}

/// The wanted heading at a time since the start, and how fast it turns.
pub fn heading(seconds: f64) -> Heading {
    Heading { yaw: PAN * (seconds - 0.5 * SECONDS), turn: PAN, own: false }
}

/// Which way the camera is to look.
pub struct Heading {
    pub yaw: f64,
    pub turn: f64,
    /// Whether the planner turns with it, and looks about no more.
    pub own: bool,
}

/// Where the trajectory is at a governed time, and the heading at a time since the start.
pub struct Way<R, H> {
    pub reference: R,
    pub heading: H,
}

/// The same another way, on a route where one is given; `look` sees the image and the answer after each tick.
pub fn fly_along(
    choice: &Choice,
    seed: u64,
    rule: Rule,
    route: Option<Route>,
    Way { reference, heading }: Way<impl Fn(f32) -> Result<Reference, Refusal>, impl Fn(f64) -> Heading>,
    mut look: impl FnMut(&Image, &Answer),
) -> Result<Flight, Refusal> {
    let (mut flight, mut image) = Flight::begin(&set_up(choice), rule, route)?;
    let mut whims = Random::new(2 * seed);
    let mut air = Air::at(reference(0.0)?.position, heading(0.0).yaw, choice.gyro_noise, seed);
    let mut planner = Planner::new(&mut whims);
    for k in 0..TICKS {
        let heading = heading(k as f64 * f64::from(DT));
        let rate = |attitude: Quat, wanted: V3| planner.toward(&heading, attitude, wanted, f64::from(DT), &mut whims);
        let answer = air.tick(&mut flight, &mut image, &reference(air.last.time)?, &heading, rate)?;
        look(&image, &answer);
    }
    Ok(flight)
}

/// An aircraft in the air, with what goes from tick to tick outside the core.
pub struct Air {
    pub aircraft: Aircraft,
    gyro_noise: f64,
    noise: Random,
    delivered: [f32; 3],
    /// How long a tick is, s.
    pub dt: f32,
    pub last: Answer,
}

impl Air {
    pub fn at(position: V3, yaw: f64, gyro_noise: f64, seed: u64) -> Self {
        Air {
            aircraft: Aircraft::at(position, yaw),
            gyro_noise,
            noise: Random::new(2 * seed + 1),
            delivered: [1.0; 3],
            dt: DT,
            last: Answer {
                torque: Torque([0.0; 3]),
                command: BodyRate([0.0; 3]),
                pilot: Pilot::Fallback,
                time: 0.0,
                psi: 0.0,
                margin: 0.0,
            },
        }
    }

    /// One tick of the flight toward a reference and a heading, and the aircraft flies on. The planner's rate is made of the estimated attitude
    /// and of the acceleration that holds the path.
    pub fn tick(
        &mut self,
        flight: &mut Flight,
        image: &mut Image,
        reference: &Reference,
        heading: &Heading,
        rate: impl FnOnce(Quat, V3) -> V3,
    ) -> Result<Answer, Refusal> {
        self.tick_by(reference, heading, rate, |input| flight.tick(image, input))
    }

    /// The same by any call that takes the input and answers.
    pub fn tick_by<E>(
        &mut self,
        reference: &Reference,
        heading: &Heading,
        rate: impl FnOnce(Quat, V3) -> V3,
        call: impl FnOnce(TickInput) -> Result<Answer, E>,
    ) -> Result<Answer, E> {
        let (dt, single) = (f64::from(self.dt), |v: V3| v.map(|x| x as f32));
        let sensed = self.aircraft.sense(self.gyro_noise, dt, &mut self.noise);
        let wanted = Planner::wanted(self.aircraft.position, self.aircraft.velocity, reference);
        self.last = call(TickInput {
            gyro: BodyRate(single(sensed.gyro)),
            attitude: sensed.attitude.map(|x| x as f32),
            tracking_error: norm(sub(self.aircraft.position, reference.position)) as f32,
            yaw: heading.yaw as f32,
            yaw_rate: heading.turn as f32,
            dt: self.dt,
            planner: BodyRate(single(rate(sensed.attitude, wanted))),
            delivered: self.delivered,
        })?;
        let (torque, thrust) = (self.last.torque.0.map(f64::from), self.aircraft.thrust_for(wanted[2]));
        self.delivered = single(self.aircraft.fly(torque, thrust, dt));
        Ok(self.last)
    }
}
