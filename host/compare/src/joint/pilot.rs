//! What comes in: set-ups, ticks and damage. All of it depends on the run's number alone.

use super::bytes::{canonical, put, raw, word, Take, PEAKS, PROFILE, SETUP, SETUP_FC, SETUP_PROFILE, TICK, WORDS};
use super::frames::{product, times};
use super::model::{Flight, Profile};
use super::route::Source;
use crate::generate::{self, Rng};
use oracle::geo::{self, Mat3};
use oracle::traj::Segment3;

/// How a run comes about.
#[derive(Clone, Copy, Debug, PartialEq, Eq)]
pub enum Kind {
    /// A slow pass whose margin wanders about the band between enter and exit.
    Pass,
    /// Inputs of any bits, one bad word in a good input, headings and times at the ends, free fall.
    Wild,
    /// Set-ups of any bits.
    SetUp,
    /// Single words of the image replaced.
    Damaged,
}

pub const KINDS: [Kind; 4] = [Kind::Pass, Kind::Wild, Kind::SetUp, Kind::Damaged];

/// The kind of the run with this number.
pub fn kind(number: u64) -> Kind {
    match number % 8 {
        0..=2 => Kind::Pass,
        3 | 4 => Kind::Wild,
        5 => Kind::SetUp,
        _ => Kind::Damaged,
    }
}

/// The accepted ticks of the run with this number: short runs as often as long ones.
pub fn length(number: u64) -> u64 {
    Rng::new("length", number).range(0.0, 12.0).exp2() as u64
}

/// What the inputs of a run are made to do.
#[derive(Clone, Copy, PartialEq, Eq)]
enum Style {
    /// The attitude's error carries the margin.
    Tilt,
    /// The rate does.
    Turn,
    /// Level, unfiltered, at the very thresholds.
    Edge,
    /// Nothing in particular.
    Fly,
    Bits,
    Special,
    Spoilt,
    /// The thrust near nothing.
    Fall,
    /// Long steps, up to an infinite time.
    Clock,
    /// A quaternion so long that entries of Rᵀ R_d overflow, and psi does not.
    Long,
}

/// The words of a set-up before its profile.
type Numbers = [f32; SETUP_PROFILE];

/// These by their places.
mod place {
    pub const SET: usize = 9;
    pub const ENTER: usize = 12;
    pub const EXIT: usize = 13;
    pub const P0: usize = 17;
    pub const A0: usize = 23;
    pub const PF: usize = 26;
    pub const VF: usize = 29;
    pub const AF: usize = 32;
    pub const T: usize = 35;
    pub const FC: usize = 48;
}

/// A number that goes from one place to the next and stays mostly between 0 and 1, with visits to both sides.
struct Wander {
    from: f32,
    to: f32,
    step: f32,
    steps: f32,
}

impl Wander {
    fn new(rng: &mut Rng) -> Self {
        Wander { from: rng.range(-0.3, 1.3), to: rng.part(), step: 0.0, steps: 20.0 }
    }

    fn next(&mut self, rng: &mut Rng) -> f32 {
        if self.step >= self.steps {
            self.from = self.to;
            self.to = match rng.below(10) {
                0 | 1 => rng.range(1.05, 1.4),
                2 | 3 => rng.range(-0.4, -0.05),
                _ => rng.part(),
            };
            (self.step, self.steps) = (0.0, 5.0 + rng.below(60) as f32);
        }
        self.step += 1.0;
        self.from + (self.to - self.from) * self.step / self.steps + rng.range(-0.02, 0.02)
    }
}

pub struct Pilot {
    pub kind: Kind,
    pub profile: Profile,
    rng: Rng,
    style: Style,
    set_up: Numbers,
    level: Wander,
    yaw: f32,
    pan: f32,
    dt: f32,
    /// The next word to be damaged.
    word: usize,
    /// A gyro that gives a margin of enter, and one of exit.
    edges: [f32; 2],
}

impl Pilot {
    pub fn new(number: u64) -> Self {
        let profile = if Rng::new("profile", number).flag() { Profile::LostRotor } else { Profile::Whole };
        let mut pilot = Pilot::of(kind(number), profile, number / 8, Rng::new("joint", number));
        let mut rng = Rng::new("cut-off", number);
        if let (Kind::SetUp, true, Some(both)) = (pilot.kind, rng.flag(), rng.of(&CUT_OFFS)) {
            pilot.set_up[SETUP_FC..].copy_from_slice(&both);
        }
        pilot
    }

    /// A pass whose attitude's error carries the margin.
    pub fn on_a_pass(profile: Profile, number: u64) -> Self {
        Pilot::of(Kind::Pass, profile, 0, Rng::new("pass", number))
    }

    fn of(kind: Kind, profile: Profile, turn: u64, mut rng: Rng) -> Self {
        let style = match kind {
            Kind::Pass => [Style::Tilt, Style::Turn, Style::Tilt, Style::Edge][(turn % 4) as usize],
            Kind::Wild => [Style::Bits, Style::Special, Style::Spoilt, Style::Fall, Style::Clock, Style::Long][(turn % 6) as usize],
            Kind::SetUp | Kind::Damaged => Style::Fly,
        };
        // these are about the product of attitudes, which a lost rotor has none of
        let profile = if style == Style::Long { Profile::Whole } else { profile };
        let set_up = flight(&mut rng);
        let (level, yaw, pan) = (Wander::new(&mut rng), rng.range(-3.2, 3.2), rng.range(-0.5, 0.5));
        let (dt, word) = (rng.range(0.001, 0.004), rng.below(WORDS));
        let mut pilot = Pilot { kind, profile, rng, style, set_up, level, yaw, pan, dt, word, edges: [0.0; 2] };
        pilot.arrange(turn);
        pilot
    }

    /// Makes the set-up one in which the style can do what it is to do.
    fn arrange(&mut self, turn: u64) {
        let (rng, s) = (&mut self.rng, &mut self.set_up);
        match self.style {
            Style::Tilt => {
                let psi_max = rng.range(0.15, 1.6);
                let exit = psi_max * rng.range(0.3, 0.6);
                s[place::SET..place::SET + 5].copy_from_slice(&[0.6, 0.04, psi_max, exit * rng.range(0.3, 0.8), exit]);
            }
            Style::Turn => {
                let exit = rng.range(0.3, 1.0);
                let lambda_j = 2.4 / rng.range(2.0, 9.0);
                s[place::SET..place::SET + 5].copy_from_slice(&[0.6, lambda_j, 1.9, exit * rng.range(0.3, 0.8), exit]);
            }
            Style::Edge => {
                // at rest, level and with no filter psi is 0 and the squared rate exact
                s[place::P0..place::T].fill(0.0);
                s[place::FC] = 0.0;
                let (k_r, lambda_j) = (rng.range(0.3, 2.0), rng.range(0.2, 0.4));
                let cap = 2.0 * k_r * 2.0 / lambda_j;
                let at = rng.range(0.3, 0.8) * cap.sqrt();
                self.edges = [at + 0.1 * cap.sqrt(), at];
                let [enter, exit] = self.edges.map(|x| cap - x * x);
                s[place::SET..place::SET + 5].copy_from_slice(&[k_r, lambda_j, 1e3, enter, exit]);
                (self.yaw, self.pan) = (0.0, 0.0);
            }
            Style::Fall => {
                let t = rng.of(&[1.0, 2.0, 4.0, 8.0]).unwrap_or(1.0);
                let a = 9.81 - rng.near_one(&[1e-3, 1e-3, 5e-4, 1e-6, 1e-9, 0.0, 2e-3]);
                fall(s, t, a);
                if rng.below(4) == 0 {
                    fall(s, t, 9.81);
                    s[place::A0] = rng.near_one(&[1e-3, 1e-9, 5e-4]);
                    (s[place::AF], s[place::VF], s[place::PF]) = (s[place::A0], s[place::A0] * t, 0.5 * s[place::A0] * t * t);
                }
                // half of them never leave the fallback
                if rng.flag() {
                    (s[place::ENTER], s[place::EXIT]) = (rng.of(&[5.0, f32::from_bits(0x7f00_0000)]).unwrap_or(5.0), 9.0);
                }
                if rng.flag() {
                    (self.yaw, self.pan) = (rng.of(&[0.0, -0.0]).unwrap_or(0.0), 0.0);
                }
            }
            Style::Long => {
                // at rest, in a fall that has an attitude and no feedforward, or as in flight
                self.yaw = rng.range(0.5, 1.1);
                match turn / 6 % 3 {
                    0 => {
                        s[place::P0..place::T].fill(0.0);
                        self.pan = 0.0;
                    }
                    1 => fall(s, 2.0, 9.81 - 5e-4),
                    _ => {}
                }
            }
            Style::Fly if self.kind == Kind::SetUp => match turn % 3 {
                0 => s.iter_mut().for_each(|w| *w = rng.word()),
                1 => s.iter_mut().for_each(|w| *w = rng.special()),
                _ => generate::damage(rng, s),
            },
            Style::Fly if rng.below(4) == 0 => generate::damage(rng, s),
            _ => {}
        }
    }

    pub fn set_up(&self) -> [u8; SETUP] {
        self.set_up_with(self.profile as u32)
    }

    /// The leg of the set-up, where the run is about what it alone does: rest and fall, which another leg has not.
    pub fn own_leg(&self) -> Option<&[f32]> {
        matches!(self.style, Style::Edge | Style::Fall | Style::Long).then(|| &self.set_up[place::P0..=place::T])
    }

    fn set_up_with(&self, profile: u32) -> [u8; SETUP] {
        let mut bytes = raw(&self.set_up);
        put(&mut bytes, SETUP_PROFILE, profile);
        bytes
    }

    /// The same with a profile that is none.
    pub fn wrong_set_up(&mut self) -> [u8; SETUP] {
        let profile = self.rng.of(&NO_PROFILES).unwrap_or(2);
        self.set_up_with(profile)
    }

    /// This length, or at times one next to it.
    pub fn length_near(&mut self, right: usize) -> usize {
        match self.rng.below(8) {
            0 => right - 1,
            1 => right + 1,
            _ => right,
        }
    }

    /// Any bytes: what stood in a buffer before.
    pub fn junk(&mut self, bytes: &mut [u8]) {
        bytes.iter_mut().for_each(|byte| *byte = self.rng.bits() as u8);
    }

    /// The input of the next tick, which follows this.
    pub fn next(&mut self, flight: &Flight, source: &Source) -> [u8; TICK] {
        let mut words = self.fly(flight, source);
        let (rng, dt) = (&mut self.rng, words[10]);
        match self.style {
            Style::Bits => {
                let every = rng.flag();
                for w in &mut words {
                    *w = if every || rng.flag() { rng.word() } else { *w };
                }
            }
            Style::Special => words.iter_mut().for_each(|w| *w = rng.special()),
            Style::Spoilt => generate::damage(rng, &mut words),
            Style::Clock => {
                words[7] = 0.0;
                words[10] = rng.of(&LONG).unwrap_or(0.001);
            }
            Style::Fly => match rng.below(if self.kind == Kind::SetUp { 4 } else { 12 }) {
                0 => generate::damage(rng, &mut words),
                1 if self.kind == Kind::SetUp => words.iter_mut().for_each(|w| *w = rng.word()),
                _ => {}
            },
            Style::Tilt | Style::Turn | Style::Edge => {
                if rng.below(100) == 0 {
                    words[11 + rng.below(3)] = rng.special();
                }
            }
            Style::Fall | Style::Long => {}
        }
        // a clock far out stands still, so long steps are mostly for the runs that are about them
        if self.style != Style::Clock && words[10].is_finite() && words[10] > 1.0 && rng.below(64) != 0 {
            words[10] = dt;
        }
        raw(&words)
    }

    /// As in flight: gyro, quaternion, tracking error, yaw, yaw rate, dt, agile, fractions.
    fn fly(&mut self, flight: &Flight, source: &Source) -> [f32; TICK / 4] {
        let level = self.level.next(&mut self.rng);
        let rng = &mut self.rng;
        let s = &self.set_up;
        let margin = s[place::ENTER] + level * (s[place::EXIT] - s[place::ENTER]);
        let track_err = s[14] + rng.range(-0.3, 1.3) * (s[15] - s[14]);
        let dt = self.dt * rng.range(0.98, 1.02);
        self.yaw += self.pan * dt;

        let [k_r, lambda_j, psi_max] = [s[place::SET], s[place::SET + 1], s[place::SET + 2]];
        let (error, speed) = match self.style {
            Style::Tilt => ((1.0 - (psi_max - margin)).acos(), rng.range(0.0, 0.3)),
            Style::Turn => {
                let error = 0.1f32;
                let cap = 2.0 * k_r * (1.0 + error.cos()) / lambda_j;
                (error, (cap - margin).sqrt())
            }
            _ => (0.3 * level.abs(), rng.range(0.0, 1.0)),
        };
        // a direction that turns slowly, so that the filter lets it through; with a rotor lost, beside any spin, which is no error
        let lost = self.profile == Profile::LostRotor;
        let (sine, cosine) = (0.3 * self.yaw + self.pan).sin_cos();
        let mut gyro = match lost {
            true => [speed * cosine, speed * sine, 20.0 * self.pan],
            false => [speed * cosine, speed * sine * 0.8, speed * sine * 0.6],
        };
        let (r_d, ahead) = flight.attitude_ahead(source, [track_err, self.yaw, self.pan, dt]);
        let mut q = match &r_d {
            Some(r_d) if lost => turned(r_d, [cosine, sine, 0.0], error),
            Some(r_d) => turned(r_d, [0.6 * cosine, 0.6 * sine, 0.8], error),
            None => rng.direction(),
        };
        // that, and what is commanded, which is no error
        if let (Some(r_d), Some(ahead), false) = (&r_d, ahead, lost) {
            let commanded = times(&product(&geo::quat_to_rotmat(q), r_d), ahead);
            gyro.iter_mut().zip(commanded).for_each(|(rate, own)| *rate += own);
        }
        match self.style {
            Style::Edge => {
                let x = match rng.below(4) {
                    0 => rng.near(self.edges[0]),
                    1 => rng.near(self.edges[1]),
                    _ => self.edges[0] + level * (self.edges[1] - self.edges[0]),
                };
                (gyro, q) = ([x, 0.0, if lost { gyro[2] } else { 0.0 }], [1.0, 0.0, 0.0, 0.0]);
            }
            Style::Fall if self.yaw == 0.0 => q = [1.0, 0.0, 0.0, 0.0],
            // about the third axis by twice the heading: the trace's two large terms cancel, the entries beside it add up to twice the square
            Style::Long => {
                let long = if rng.flag() { rng.range(1.2e19, 1.5e19) } else { rng.range(0.0, 63.0).exp2() };
                let (sine, cosine) = self.yaw.sin_cos();
                q = [long * cosine, 0.0, 0.0, long * sine];
            }
            _ => {}
        }
        let agile: [f32; 3] = std::array::from_fn(|_| rng.range(-2.0, 2.0));
        let fraction: [f32; 3] = std::array::from_fn(|_| if rng.below(8) == 0 { rng.range(-0.2, 1.2) } else { 1.0 });
        let mut words = [0.0; TICK / 4];
        words[..3].copy_from_slice(&gyro);
        words[3..7].copy_from_slice(&q);
        words[7..11].copy_from_slice(&[track_err, self.yaw, self.pan, dt]);
        if lost && rng.flag() {
            // which is not read
            words[8..10].iter_mut().for_each(|w| *w = rng.special());
        }
        words[11..14].copy_from_slice(&agile);
        words[14..].copy_from_slice(&fraction);
        words
    }

    /// Now and then one word of the image replaced, each word in turn; which one.
    pub fn damage(&mut self, image: &mut [u8]) -> Option<usize> {
        if self.kind != Kind::Damaged || self.rng.below(3) != 0 {
            return None;
        }
        let at = self.word;
        self.word = (self.word + 1) % WORDS;
        let new = match self.rng.below(3) {
            0 => self.rng.special().to_bits(),
            1 => self.rng.bits() as u32,
            _ => self.telling(at, image),
        };
        put(image, at, new);
        // of another segment the peaks are others: at times they are made right
        if (20..41).contains(&at) && self.rng.flag() {
            let peaks = Segment3::from_words(Take::from(image, 20).axes()).peak_abs_jerk();
            peaks.into_iter().zip(PEAKS..).for_each(|(peak, at)| put(image, at, canonical(peak)));
        }
        Some(at)
    }

    /// Whether to go on with a damaged image.
    pub fn goes_on(&mut self) -> bool {
        self.rng.flag()
    }

    /// A word near what row 4 decides by.
    fn telling(&mut self, at: usize, image: &[u8]) -> u32 {
        let rng = &mut self.rng;
        let near = |rng: &mut Rng, x: u32| rng.near(f32::from_bits(x)).to_bits();
        match at {
            0 => rng.of(&[96, 96, 95, 98, 100, 99 << 8, 99 << 24, 99 | 1 << 16, 99.0f32.to_bits(), 0]).unwrap_or(0),
            13 => near(rng, word(image, 14)),
            14 => near(rng, word(image, 13)),
            15 => rng.of(&[0, 1, 2, 3, 256, 1 << 24, 1 << 31, 1.0f32.to_bits(), 255, u32::MAX]).unwrap_or(0),
            16 => rng.of(&[0, 1, 1 << 31, (1 << 31) | 1, 0x7f80_0000, 0xff80_0000, 0x7f7f_ffff, 0x4680_0000]).unwrap_or(0),
            26 | 33 | 40 => near(rng, 1e-3f32.to_bits()),
            PROFILE if rng.flag() => rng.below(2) as u32,
            PROFILE => rng.of(&NO_PROFILES).unwrap_or(2),
            PEAKS.. => {
                rng.of(&[word(image, at), 1 << 31, 0x7fc0_0000, 0x7f80_0000]).unwrap_or(0) ^ rng.of(&[0, 1, 1 << 31, 1 << 23]).unwrap_or(0)
            }
            _ => near(rng, word(image, at)),
        }
    }
}

/// Words that are no profile.
const NO_PROFILES: [u32; 10] = [2, 3, 255, 256, 1 << 16, 1 << 24, 1 << 31, 1 << 31 | 1, f32::to_bits(1.0), u32::MAX];

/// Cut-offs and sample rates at and about what `Biquad::lowpass` decides by: most pass through, and those do not that follow one of their kind which does.
pub(crate) const CUT_OFFS: [[f32; 2]; 20] = [
    [0.0, 1000.0],
    [-0.0, 1000.0],
    [-80.0, 1000.0],
    [f32::NAN, 1000.0],
    [1e-45, 1000.0],
    [500.0, 1000.0],
    [500.00003, 1000.0],
    [499.99997, 1000.0],
    [f32::INFINITY, 1000.0],
    [80.0, 0.0],
    [80.0, -1000.0],
    [80.0, f32::NAN],
    [f32::INFINITY, f32::INFINITY],
    [80.0, f32::INFINITY],
    [f32::MAX, f32::INFINITY],
    [1e38, 3e38],
    // half of the smallest number is 0
    [1e-45, 1e-45],
    [1e-45, 4e-45],
    [1e-45, 6e-45],
    [1.7014118e38, f32::MAX],
];

/// Steps that bring a clock to where it stands still, and on to infinity.
const LONG: [f32; 12] = [0.001, 0.001, 0.5, 4096.0, 32768.0, 1e30, f32::MAX, f32::MAX, f32::INFINITY, f32::NAN, -0.0, 1e-45];

/// A set-up as in flight, by document 01's fifty words.
fn flight(rng: &mut Rng) -> Numbers {
    let mut s = [0.0; SETUP_PROFILE];
    let falcon = [0.6, 0.6, 0.15, 0.12, 0.12, 0.35, 0.0217, 0.0217, 0.04];
    s.iter_mut().zip(falcon).for_each(|(w, x)| *w = x * rng.range(0.5, 2.0));
    s[place::SET..place::SET + 3].copy_from_slice(&[rng.range(0.3, 1.2), rng.range(0.02, 0.08), rng.range(0.5, 1.9)]);
    s[place::ENTER] = rng.range(0.02, 0.3);
    s[place::EXIT] = s[place::ENTER] + rng.range(0.01, 0.4);
    s[14] = rng.range(0.1, 1.0);
    s[15] = s[14] + rng.range(0.1, 2.0);
    s[16] = rng.range(0.0, 0.5);
    // positions, velocities and accelerations at both ends
    for (at, size) in [(place::P0, 5.0), (20, 0.5), (place::A0, 0.5), (place::PF, 5.0), (place::VF, 0.5), (place::AF, 0.5)] {
        s[at..at + 3].iter_mut().for_each(|w| *w = rng.range(-size, size));
    }
    s[place::T] = rng.range(4.0, 30.0);
    let adrc = [40.0, 12.0, 60.0, 0.0125, 40.0, 12.0, 60.0, 0.0125, 30.0, 3.0, 18.0, 0.025];
    s[36..place::FC].iter_mut().zip(adrc).for_each(|(w, x)| *w = x * rng.range(0.7, 1.4));
    s[place::FC..].copy_from_slice(&[rng.range(30.0, 120.0), rng.range(300.0, 1000.0)]);
    s
}

/// Down with this acceleration at all times: coefficients c5 to c3 are exactly zero.
fn fall(s: &mut Numbers, t: f32, a: f32) {
    s[place::P0..place::T].fill(0.0);
    s[place::T] = t;
    (s[place::A0 + 2], s[place::AF + 2], s[place::VF + 2], s[place::PF + 2]) = (a, a, a * t, 0.5 * a * t * t);
}

/// The quaternion of an attitude, turned about an axis of the body.
fn turned(r: &Mat3, axis: [f32; 3], angle: f32) -> [f32; 4] {
    let [w, x, y, z] = quaternion(r);
    let (s, c) = (0.5 * angle).sin_cos();
    let [i, j, k] = axis.map(|a| s * a);
    [w * c - x * i - y * j - z * k, w * i + x * c + y * k - z * j, w * j - x * k + y * c + z * i, w * k + x * j - y * i + z * c]
}

/// Of the four ways the one that divides by the largest number.
fn quaternion(r: &Mat3) -> [f32; 4] {
    let [[a, _, _], [_, b, _], [_, _, c]] = *r;
    let (yz, zx, xy) = (r[2][1] - r[1][2], r[0][2] - r[2][0], r[1][0] - r[0][1]);
    let (syz, szx, sxy) = (r[2][1] + r[1][2], r[0][2] + r[2][0], r[1][0] + r[0][1]);
    let q = if a + b + c > 0.0 {
        [1.0 + a + b + c, yz, zx, xy]
    } else if a >= b && a >= c {
        [yz, 1.0 + a - b - c, sxy, szx]
    } else if b >= c {
        [zx, sxy, 1.0 - a + b - c, syz]
    } else {
        [xy, szx, syz, 1.0 - a - b + c]
    };
    let n = q.iter().map(|x| x * x).sum::<f32>().sqrt();
    q.map(|x| x / n)
}
