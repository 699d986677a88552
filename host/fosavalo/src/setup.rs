use crate::words::{Put, Take};
use crate::{Refusal, SETUP_BYTES};
use core::fmt;

/// Gains of the attitude controller, axis by axis.
#[derive(Clone, Copy, Debug, PartialEq)]
pub struct Gains {
    /// Attitude gains. The fallback's rate command is minus these times the attitude error (twice the sine of the angle).
    pub k_r: [f32; 3],
    /// Rate gains.
    pub k_omega: [f32; 3],
    /// Inertia, kg m².
    pub j: [f32; 3],
}

/// What the margin is measured against: the smaller of `psi_max - psi` and `2 k_r (2 - psi) / lambda_j - |error|²`, where psi is one
/// minus the cosine of the angle between the attitude and the wanted one, and the error is the filtered rate less the commanded one, which is
/// what the trajectory and the yaw rate ask for. Where the wanted thrust is next to nothing there is no commanded rate, and all of the filtered
/// rate counts. [`Profile::LostRotor`] has an angle and an error of its own.
#[derive(Clone, Copy, Debug, PartialEq)]
pub struct RecoverableSet {
    /// The attitude gain that the set was worked out with.
    pub k_r: f32,
    /// The largest inertia; a set whose `lambda_j` is not finite and above 0 has margin minus infinity.
    pub lambda_j: f32,
    /// The psi at which nothing is left.
    pub psi_max: f32,
}

/// Slows the clock of the trajectory as the tracking error grows from `err_lo` to `err_hi`, to `g_min` of its pace.
#[derive(Clone, Copy, Debug, PartialEq)]
pub struct Governor {
    /// Up to this error, in metres, the clock keeps its full pace.
    pub err_lo: f32,
    /// From this error on it keeps the least.
    pub err_hi: f32,
    /// The least pace, 0 to 1.
    pub g_min: f32,
}

/// A flight from one state to another along a quintic on each axis: north, east, down, in metres and seconds.
///
#[doc = include_str!("axes.md")]
#[derive(Clone, Copy, Debug, PartialEq)]
pub struct Segment {
    /// Position at the start.
    pub p0: [f32; 3],
    /// Velocity at the start.
    pub v0: [f32; 3],
    /// Acceleration at the start.
    pub a0: [f32; 3],
    /// Position at the end.
    pub pf: [f32; 3],
    /// Velocity at the end.
    pub vf: [f32; 3],
    /// Acceleration at the end.
    pub af: [f32; 3],
    /// The duration.
    pub t: f32,
}

impl Segment {
    pub(crate) fn put(&self, to: &mut Put) {
        [self.p0, self.v0, self.a0, self.pf, self.vf, self.af].into_iter().for_each(|v| to.floats(v));
        to.floats([self.t]);
    }

    pub(crate) fn take(from: &mut Take) -> Self {
        Segment {
            p0: from.floats(),
            v0: from.floats(),
            a0: from.floats(),
            pf: from.floats(),
            vf: from.floats(),
            af: from.floats(),
            t: from.float(),
        }
    }
}

/// Gains of the rate controller of one axis.
#[derive(Clone, Copy, Debug, PartialEq)]
pub struct AdrcGains {
    /// The observer's bandwidth, rad/s.
    pub omega_o: f32,
    /// The controller's bandwidth, rad/s.
    pub omega_c: f32,
    /// Angular acceleration for one unit of torque, rad/s².
    pub b0: f32,
    /// The motors' lag, s.
    pub tau: f32,
}

/// The low-pass filter of the gyro. Set-up refuses one that would pass everything: `fc` has to be above 0 and below `fs / 2`.
///
/// ```
/// use fosavalo::{GyroFilter, Image, Refusal, SetUp};
///
/// // 0 Hz does not turn the filter off
/// let off = SetUp { filter: GyroFilter { fc: 0.0, fs: 1000.0 }, ..SetUp::falcon_quad() };
/// assert_eq!(Image::set_up(&off), Err(Refusal::PassThrough));
/// ```
#[derive(Clone, Copy, Debug, PartialEq)]
pub struct GyroFilter {
    /// The cut-off, Hz. A gyro that is to be filtered as little as can be wants one just below `fs / 2`.
    pub fc: f32,
    /// Ticks a second.
    pub fs: f32,
}

/// What a filter does that set-up takes and hardly anyone can want. [`GyroFilter::doubt`] tells.
#[derive(Clone, Copy, Debug, PartialEq, Eq)]
#[non_exhaustive]
pub enum FilterDoubt {
    /// The cut-off is so low that the cosine of its angle rounds to 1: the filter lets nothing through, and the filtered rate is 0 for ever.
    SwitchesOff,
    /// The cut-off is above nine tenths of half the sample rate: next to nothing is filtered.
    HardlyFilters,
}

impl fmt::Display for FilterDoubt {
    fn fmt(&self, f: &mut fmt::Formatter<'_>) -> fmt::Result {
        f.write_str(match self {
            FilterDoubt::SwitchesOff => "the cut-off fc is below fs / 25586: nothing is let through, and the filtered rate is 0 for ever",
            FilterDoubt::HardlyFilters => "the cut-off fc is next to half of fs: next to nothing is filtered",
        })
    }
}

impl GyroFilter {
    /// The largest angle per sample whose cosine, in the core's steps, is 1: the bits 3980bf77.
    const SHUT: f32 = 2.455_671_5e-4;

    /// Whether a filter that set-up takes does what hardly anyone can want. One that set-up refuses, or one with an ordinary cut-off, has none.
    ///
    /// ```
    /// use fosavalo::{FilterDoubt, GyroFilter};
    ///
    /// assert_eq!(GyroFilter { fc: 80.0, fs: 1000.0 }.doubt(), None);
    /// assert_eq!(GyroFilter { fc: 0.03, fs: 1000.0 }.doubt(), Some(FilterDoubt::SwitchesOff));
    /// assert_eq!(GyroFilter { fc: 499.0, fs: 1000.0 }.doubt(), Some(FilterDoubt::HardlyFilters));
    /// ```
    pub fn doubt(self) -> Option<FilterDoubt> {
        let GyroFilter { fc, fs } = self;
        if !(fc > 0.0 && fs > 0.0 && fc < 0.5 * fs) {
            return None;
        }
        // as `Biquad::lowpass` works it out
        if 2.0 * core::f32::consts::PI * fc / fs <= Self::SHUT {
            return Some(FilterDoubt::SwitchesOff);
        }
        (fc > 0.45 * fs).then_some(FilterDoubt::HardlyFilters)
    }
}

/// What there is to fly with.
///
/// ```
/// use fosavalo::{BodyRate, Image, Pilot, Profile, SetUp, TickInput};
///
/// // spinning at 20 rad/s, with no heading: the planner flies, and nothing is asked about the
/// // third axis
/// let mut image = Image::set_up(&SetUp { profile: Profile::LostRotor, ..SetUp::falcon_quad() })?;
/// let spinning = TickInput {
///     gyro: BodyRate([0.0, 0.0, 20.0]),
///     yaw: f32::NAN,
///     planner: BodyRate([0.5, 0.0, 2.0]),
///     ..TickInput::default()
/// };
/// let answer = image.tick(&spinning)?;
/// assert_eq!((answer.pilot, answer.margin), (Pilot::Planner, 1.75));
/// assert_eq!((answer.command.0, answer.torque.0[2]), ([0.5, 0.0, 0.0], 0.0));
/// # Ok::<(), fosavalo::Refusal>(())
/// ```
#[derive(Clone, Copy, Debug, Default, PartialEq, Eq, Hash)]
pub enum Profile {
    /// All rotors.
    #[default]
    Whole,
    /// One rotor is lost, and with it the hold on yaw: the aircraft is brought down level. The attitude's error is that of the thrust axis alone,
    /// psi is one minus the cosine of the angle to the wanted one, and the margin counts the first two filtered rates, all of them. The wanted
    /// heading and its rate are not read. The command's third number and the third torque are 0, and the third axis's rate control stands still.
    LostRotor,
}

impl Profile {
    /// Its word in a set-up and in an image: 0 or 1.
    pub const fn word(self) -> u32 {
        match self {
            Profile::Whole => 0,
            Profile::LostRotor => 1,
        }
    }

    /// From its word; refused where this is neither 0 nor 1.
    ///
    /// ```
    /// use fosavalo::{Profile, Refusal};
    ///
    /// assert_eq!(Profile::from_word(1), Ok(Profile::LostRotor));
    /// assert_eq!(Profile::from_word(2), Err(Refusal::WrongProfile));
    /// ```
    pub const fn from_word(word: u32) -> Result<Self, Refusal> {
        match word {
            0 => Ok(Profile::Whole),
            1 => Ok(Profile::LostRotor),
            _ => Err(Refusal::WrongProfile),
        }
    }
}

/// All that a flight is set up with. Every bit pattern of a number is taken, and what is no use is mended; but for a [`GyroFilter`] that is none,
/// which is refused.
///
/// ```
/// use fosavalo::{Image, SetUp};
///
/// // thresholds that are none: enter becomes 0.1, exit twice that
/// let image = Image::set_up(&SetUp { enter: f32::NAN, exit: -1.0, ..SetUp::falcon_quad() })?;
/// assert_eq!((image.enter(), image.exit()), (0.1, 0.2));
/// # Ok::<(), fosavalo::Refusal>(())
/// ```
#[derive(Clone, Copy, Debug, PartialEq)]
pub struct SetUp {
    /// Gains of the attitude controller.
    pub gains: Gains,
    /// What the margin is measured against.
    pub set: RecoverableSet,
    /// Below this margin the fallback takes over. Kept if finite and above 0, else 0.1.
    pub enter: f32,
    /// Above this margin the planner gets control back. Kept if finite and above `enter`, else twice `enter`.
    pub exit: f32,
    /// The pace of the trajectory's clock.
    pub governor: Governor,
    /// The trajectory.
    pub segment: Segment,
    /// Roll, pitch and yaw.
    pub adrc: [AdrcGains; 3],
    /// The gyro's filter.
    pub filter: GyroFilter,
    /// What there is to fly with.
    pub profile: Profile,
}

impl SetUp {
    /// relay's own gains for its quadrotor, hovering at the origin: a set of (1, 1, 1.75), enter 0.5, exit 1, the gyro filtered at 80 Hz, all rotors.
    pub const fn falcon_quad() -> Self {
        let tilt = AdrcGains { omega_o: 40.0, omega_c: 12.0, b0: 60.0, tau: 0.0125 };
        SetUp {
            gains: Gains { k_r: [0.6, 0.6, 0.15], k_omega: [0.12, 0.12, 0.35], j: [0.0217, 0.0217, 0.04] },
            set: RecoverableSet { k_r: 1.0, lambda_j: 1.0, psi_max: 1.75 },
            enter: 0.5,
            exit: 1.0,
            governor: Governor { err_lo: 0.2, err_hi: 1.0, g_min: 0.25 },
            segment: Segment { p0: [0.0; 3], v0: [0.0; 3], a0: [0.0; 3], pf: [0.0; 3], vf: [0.0; 3], af: [0.0; 3], t: 1.0 },
            adrc: [tilt, tilt, AdrcGains { omega_o: 30.0, omega_c: 3.0, b0: 18.0, tau: 0.025 }],
            filter: GyroFilter { fc: 80.0, fs: 1000.0 },
            profile: Profile::Whole,
        }
    }

    /// The fifty-one words.
    ///
    /// ```
    /// use fosavalo::SetUp;
    ///
    /// let set_up = SetUp::falcon_quad();
    /// assert_eq!(SetUp::from_bytes(&set_up.to_bytes()), Ok(set_up));
    /// ```
    pub fn to_bytes(&self) -> [u8; SETUP_BYTES] {
        let mut bytes = [0; SETUP_BYTES];
        let mut to = Put::to(&mut bytes);
        let g = &self.gains;
        [g.k_r, g.k_omega, g.j].into_iter().for_each(|v| to.floats(v));
        to.floats([self.set.k_r, self.set.lambda_j, self.set.psi_max, self.enter, self.exit]);
        to.floats([self.governor.err_lo, self.governor.err_hi, self.governor.g_min]);
        self.segment.put(&mut to);
        self.adrc.into_iter().for_each(|a| to.floats([a.omega_o, a.omega_c, a.b0, a.tau]));
        to.floats([self.filter.fc, self.filter.fs]);
        to.word(self.profile.word());
        bytes
    }

    /// From fifty-one words; refused where these are not 204 bytes, then where the last is no profile's.
    pub fn from_bytes(bytes: &[u8]) -> Result<Self, Refusal> {
        if bytes.len() != SETUP_BYTES {
            return Err(Refusal::InputLength);
        }
        let mut from = Take(bytes);
        Ok(SetUp {
            gains: Gains { k_r: from.floats(), k_omega: from.floats(), j: from.floats() },
            set: RecoverableSet { k_r: from.float(), lambda_j: from.float(), psi_max: from.float() },
            enter: from.float(),
            exit: from.float(),
            governor: Governor { err_lo: from.float(), err_hi: from.float(), g_min: from.float() },
            segment: Segment::take(&mut from),
            adrc: core::array::from_fn(|_| AdrcGains { omega_o: from.float(), omega_c: from.float(), b0: from.float(), tau: from.float() }),
            filter: GyroFilter { fc: from.float(), fs: from.float() },
            profile: Profile::from_word(from.word())?,
        })
    }
}
