//! The numbers of relay_math over every bit pattern, or every so many.

use crate::progress::Progress;
use crate::{exact, same, steps, threads};
use std::sync::Mutex;

/// The size up to which sine and cosine are served, and the one up to which they were before request Five.
pub const LIMIT: f32 = 8192.0;
pub const EARLIER_LIMIT: f32 = 128.0;

/// Bars: the worst distance from document 01's exact value, and the worst error in units in the last place where the value is at least 1e-3 in size.
pub const DISTANCE: f64 = 3.2e-8;
pub const ULPS: f64 = 0.54;

/// What a sweep over patterns found.
#[derive(Clone, Default)]
pub struct Found {
    pub cases: u64,
    /// The first pattern that is wrong, in words.
    pub wrong: Option<String>,
    pub distance: f64,
    pub at: f32,
    pub ulps: f64,
    pub ulps_at: f32,
}

/// What a sweep finds on each thread, put together.
pub trait Sweeps: Default + Send {
    fn of(cases: u64) -> Self;
    fn join(&mut self, other: Self);
}

impl Found {
    fn fault(&mut self, text: impl FnOnce() -> String) {
        if self.wrong.is_none() {
            self.wrong = Some(text());
        }
    }

    /// Counts how far the answer of a function at x is from `value`.
    fn look(&mut self, x: f32, got: f32, value: f64) {
        let distance = (f64::from(got) - value).abs();
        if distance > self.distance {
            (self.distance, self.at) = (distance, x);
        }
        if value.abs() >= 1e-3 {
            let ulps = distance / 2f64.powi((value.abs().log2().floor() as i32) - 23);
            if ulps > self.ulps {
                (self.ulps, self.ulps_at) = (ulps, x);
            }
        }
    }

    /// The same, with a fault where it passes a bar.
    fn within_bars(mut self) -> Self {
        if self.distance > DISTANCE {
            let (d, at) = (self.distance, self.at.to_bits());
            self.fault(|| format!("distance {d:e} at {at:08x}"));
        }
        if self.ulps > ULPS {
            let (d, at) = (self.ulps, self.ulps_at.to_bits());
            self.fault(|| format!("{d} units in the last place at {at:08x}"));
        }
        self
    }
}

impl Sweeps for Found {
    fn of(cases: u64) -> Self {
        Found { cases, ..Found::default() }
    }

    fn join(&mut self, other: Found) {
        self.cases += other.cases;
        if self.wrong.is_none() {
            self.wrong = other.wrong;
        }
        if other.distance > self.distance {
            (self.distance, self.at) = (other.distance, other.at);
        }
        if other.ulps > self.ulps {
            (self.ulps, self.ulps_at) = (other.ulps, other.ulps_at);
        }
    }
}

/// Patterns that one thread does at a time.
const CHUNK: u64 = 250_000;

/// Runs `one` on the patterns `first`, `first + stride`, .. up to and with `last`, on as many threads as the machine has.
pub fn sweep<F: Sweeps>(what: &'static str, first: u32, last: u32, stride: u32, one: impl Fn(f32, &mut F) + Sync) -> F {
    let all = u64::from(last - first) / u64::from(stride) + 1;
    let progress = Progress::new(what, all);
    let total = Mutex::new(F::default());
    threads::each(all.div_ceil(CHUNK), |chunk| {
        let (from, to) = (chunk * CHUNK, all.min((chunk + 1) * CHUNK));
        let mut found = F::of(to - from);
        (from..to).for_each(|k| one(f32::from_bits((u64::from(first) + k * u64::from(stride)) as u32), &mut found));
        progress.add(to - from);
        total.lock().expect("a sweep's thread failed").join(found);
        false
    });
    total.into_inner().expect("a sweep's thread failed")
}

/// The root, the absolute value and finiteness against the hardware's.
pub fn hardware(stride: u32) -> Found {
    sweep("root, size and finiteness", 0, u32::MAX, stride, |x, found: &mut Found| {
        let r = archives::sqrtf(x);
        if !same(r, x.sqrt()) {
            found.fault(|| format!("root of {:08x} is {:08x}, the hardware's {:08x}", x.to_bits(), r.to_bits(), x.sqrt().to_bits()));
        }
        if !same(archives::fabsf(x), x.abs()) || archives::is_finite(x) != x.is_finite() {
            found.fault(|| format!("size or finiteness of {:08x}", x.to_bits()));
        }
        if !same(archives::finite_or(x, 1.5), if x.is_finite() { x } else { 1.5 }) {
            found.fault(|| format!("finite_or of {:08x}", x.to_bits()));
        }
    })
}

/// Sine and cosine at x and at -x: the pair and the two single calls agree, and sine is odd and cosine even bit for bit.
fn angle(x: f32, found: &mut Found) {
    let (s, c) = archives::sincos(x);
    let (sm, cm) = archives::sincos(-x);
    if s.to_bits() != archives::sinf(x).to_bits() || c.to_bits() != archives::cosf(x).to_bits() {
        found.fault(|| format!("pair and single calls differ at {:08x}", x.to_bits()));
    }
    if sm.to_bits() != (-s).to_bits() || cm.to_bits() != c.to_bits() {
        found.fault(|| format!("signs at {:08x}", x.to_bits()));
    }
    let (ts, tc) = f64::from(x).sin_cos();
    found.look(x, s, ts);
    found.look(x, c, tc);
}

/// Every size up to the limit. How far the true value is, is for the record: P is not quite half of pi, and n times as far off.
pub fn angles(stride: u32) -> Found {
    sweep("sine and cosine up to the limit", 0, LIMIT.to_bits(), stride, angle)
}

/// The answers at many angles in one number, whatever the order in which they are taken.
#[derive(Clone, Default)]
pub struct Checksum {
    pub cases: u64,
    pub sum: u64,
}

impl Sweeps for Checksum {
    fn of(cases: u64) -> Self {
        Checksum { cases, sum: 0 }
    }

    fn join(&mut self, other: Checksum) {
        self.cases += other.cases;
        self.sum = self.sum.wrapping_add(other.sum);
    }
}

/// A word from a word in which every bit counts (the last steps of splitmix64).
fn mixed(word: u64) -> u64 {
    let word = (word ^ word >> 30).wrapping_mul(0xbf58_476d_1ce4_e5b9);
    let word = (word ^ word >> 27).wrapping_mul(0x94d0_49bb_1331_11eb);
    word ^ word >> 31
}

/// What `checksum` adds up to, before request Five and since.
pub const EARLIER_SUM: u64 = 0x518e_4d2a_e683_a703;

/// Sine and cosine of every f32 up to the earlier limit, of either sign.
pub fn checksum() -> Checksum {
    sweep("a checksum up to the earlier limit", 0, EARLIER_LIMIT.to_bits(), 1, |x, found: &mut Checksum| {
        for x in [x, -x] {
            for (function, answer) in [archives::sinf(x), archives::cosf(x)].into_iter().enumerate() {
                let answer = u64::from(answer.to_bits()) << 32 | u64::from(x.to_bits());
                found.sum = found.sum.wrapping_add(mixed(mixed(answer) + function as u64));
            }
        }
    })
}

/// Beyond the limit, the infinities and the NaNs: +0.0 for both signs.
pub fn far(stride: u32) -> Found {
    sweep("sine and cosine beyond the limit", LIMIT.to_bits() + 1, 0x7fff_ffff, stride, |x, found: &mut Found| {
        for x in [x, f32::from_bits(x.to_bits() | 0x8000_0000)] {
            let (s, c) = archives::sincos(x);
            if s.to_bits() != 0 || c.to_bits() != 0 || archives::sinf(x).to_bits() != 0 || archives::cosf(x).to_bits() != 0 {
                found.fault(|| format!("beyond the limit at {:08x}", x.to_bits()));
            }
        }
    })
}

/// Our answers up to the limit against document 01's exact values, worked out from its own words, and against the steps as they are written a second time.
pub fn document(stride: u32) -> Found {
    sweep("sine and cosine against document 01", 0, LIMIT.to_bits(), stride, |x, found: &mut Found| {
        let ((s, c), (es, ec)) = (archives::sincos(x), exact::sincos(x));
        found.look(x, s, es);
        found.look(x, c, ec);
        if !(s.abs() <= 1.0 && c.abs() <= 1.0) {
            found.fault(|| format!("more than 1 at {:08x}", x.to_bits()));
        }
        if steps::sincos(x) != (s, c) {
            found.fault(|| format!("not the steps' answer at {:08x}", x.to_bits()));
        }
    })
    .within_bars()
}

/// The published f32 kernels against the true value, for the record.
pub fn published(stride: u32) -> Found {
    sweep("the published kernels", 0, EARLIER_LIMIT.to_bits(), stride, |x, found: &mut Found| {
        let (ts, tc) = f64::from(x).sin_cos();
        let s = relay_math_published::sinf(x);
        let c = relay_math_published::cosf(x);
        found.look(x, s, ts);
        found.look(x, c, tc);
    })
}

/// How far apart two answers to the same angles are.
#[derive(Clone, Default)]
pub struct Apart {
    pub cases: u64,
    /// How many answers differ, and how many by more than one unit in the last place.
    pub differ: u64,
    pub further: u64,
    /// The most units between the two, and the greatest distance, each with its angle.
    pub units: u64,
    pub at: f32,
    pub distance: f64,
    pub distance_at: f32,
}

/// The place of a float among all floats in their order: neighbours are one unit apart, and the two zeros share a place.
fn place(x: f32) -> i64 {
    let size = i64::from(x.to_bits() & 0x7fff_ffff);
    if x.is_sign_negative() {
        -size
    } else {
        size
    }
}

impl Apart {
    fn look(&mut self, x: f32, ours: f32, theirs: f32) {
        let units = place(ours).abs_diff(place(theirs));
        let distance = (f64::from(ours) - f64::from(theirs)).abs();
        self.join(Apart { cases: 0, differ: (units > 0).into(), further: (units > 1).into(), units, at: x, distance, distance_at: x });
    }
}

impl Sweeps for Apart {
    fn of(cases: u64) -> Self {
        Apart { cases, ..Apart::default() }
    }

    fn join(&mut self, other: Apart) {
        self.cases += other.cases;
        self.differ += other.differ;
        self.further += other.further;
        if other.units > self.units {
            (self.units, self.at) = (other.units, other.at);
        }
        if other.distance > self.distance {
            (self.distance, self.distance_at) = (other.distance, other.distance_at);
        }
    }
}

/// Ours beside a published kernel, at every angle up to 128, the published ones' envelope, of either sign. The zeros are left out: -0.0 has a line of its own in
/// docs/DIFFERENCES.md.
pub fn apart(stride: u32, ours: fn(f32) -> f32, published: fn(f32) -> f32) -> Apart {
    let signed = |sign: u32| {
        sweep("ours beside the published kernel", sign + 1, sign + EARLIER_LIMIT.to_bits(), stride, |x, found: &mut Apart| {
            found.look(x, ours(x), published(x));
        })
    };
    let mut found = signed(0);
    found.join(signed(0x8000_0000));
    found
}
