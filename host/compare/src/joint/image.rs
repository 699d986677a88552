//! Document 01's words as the Rust's objects: the image, what a tick is told and what it answers.

use super::bytes::{Put, Take, WORDS};
use super::model::Guidance;
use oracle::adrc::{AdrcAxis, AdrcRate, GyroLpf};
use oracle::geo::{GeoAtt, GeoGains, RecoverableSet, SimplexShield, Vec3};
use oracle::traj::{RefGovernor, Segment3};

/// Everything that goes from tick to tick. A comparison keeps it; a call on bytes makes it anew from the image.
pub struct Flight {
    pub(super) controller: GeoAtt,
    pub(super) shield: SimplexShield,
    pub(super) governor: RefGovernor,
    pub(super) segment: Segment3,
    pub(super) rate: AdrcRate,
    pub(super) lpf: GyroLpf,
    pub(super) profile: Profile,
}

/// Document 02's: "0 the old rules, 1 the lost rotor". Other words are refused before.
#[derive(Clone, Copy, PartialEq, Eq, Debug)]
pub enum Profile {
    Whole,
    LostRotor,
}

/// "Tick input, 17 words"
#[derive(Clone, Copy)]
pub struct Input {
    pub gyro: Vec3,
    pub q: [f32; 4],
    pub track_err: f32,
    pub yaw: f32,
    pub yaw_rate: f32,
    pub dt: f32,
    pub agile: Vec3,
    pub fraction: Vec3,
}

/// "Answer, 10 words"; psi and the margin are in the guidance.
pub struct Answer {
    pub torque: Vec3,
    pub command: Vec3,
    pub flag: bool,
    pub time: f32,
    pub guidance: Guidance,
}

impl Profile {
    #[inline]
    pub fn of(word: u32) -> Self {
        if word == 1 {
            Profile::LostRotor
        } else {
            Profile::Whole
        }
    }
}

impl Flight {
    /// From the words of an image that row 4 does not refuse. (At one that it does, the Rust may panic in a tick.)
    #[inline]
    pub fn from_image(image: &[u8]) -> Self {
        let mut i = Take::from(image, 1);
        let controller = GeoAtt::new(GeoGains { k_r: i.floats(), k_omega: i.floats(), j: i.floats() });
        let ([k_r, lambda_j, psi_max], [enter, exit]) = (i.floats(), i.floats());
        let engaged = if i.word() == 0 { 0.0 } else { 1.0 };
        Flight {
            controller,
            shield: SimplexShield::from_words([k_r, lambda_j, psi_max, engaged, enter, exit]),
            governor: RefGovernor::from_words(i.floats()),
            segment: Segment3::from_words(i.axes()),
            rate: AdrcRate::from_words(i.axes()),
            lpf: GyroLpf::from_words(i.axes()),
            profile: Profile::of(i.word()),
        }
    }

    /// All words but the peaks, which stay as they stand.
    #[inline]
    pub fn write_but_peaks(&self, image: &mut [u8]) {
        let [k_r, lambda_j, psi_max, _, enter, exit] = self.shield.words();
        let mut o = Put::from(image, 0);
        o.word(WORDS as u32);
        o.axes(self.controller.words());
        o.floats([k_r, lambda_j, psi_max, enter, exit]);
        o.word(u32::from(self.shield.fallback_engaged()));
        o.floats(self.governor.words());
        o.axes(self.segment.words());
        o.axes(self.rate.words());
        o.axes(self.lpf.words());
        o.word(self.profile as u32);
    }

    /// The shield's set.
    #[inline]
    pub(super) fn set(&self) -> RecoverableSet {
        let [k_r, lambda_j, psi_max, ..] = self.shield.words();
        RecoverableSet::new(k_r, lambda_j, psi_max)
    }

    /// The axes of ADRC, each by itself.
    #[inline]
    pub(super) fn axes(&self) -> [AdrcAxis; 3] {
        self.rate.words().map(AdrcAxis::from_words)
    }

    #[inline]
    pub(super) fn set_axes(&mut self, axes: [AdrcAxis; 3]) {
        self.rate = AdrcRate::from_words(axes.map(|axis| axis.words()));
    }
}

impl Input {
    #[inline]
    pub fn read(bytes: &[u8]) -> Self {
        let mut i = Take::from(bytes, 0);
        Input {
            gyro: i.floats(),
            q: i.floats(),
            track_err: i.float(),
            yaw: i.float(),
            yaw_rate: i.float(),
            dt: i.float(),
            agile: i.floats(),
            fraction: i.floats(),
        }
    }
}

impl Answer {
    #[inline]
    pub fn write(&self, bytes: &mut [u8]) {
        let mut o = Put::from(bytes, 0);
        o.floats(self.torque);
        o.floats(self.command);
        o.word(u32::from(self.flag));
        o.floats([self.time, self.guidance.psi, self.guidance.margin]);
    }
}
