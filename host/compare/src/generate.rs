//! Inputs. Every row depends on the routine's name and the row's number alone, so a run can be had again on any machine,
//! with any number of threads.

use crate::numbers::LIMIT;

/// splitmix64.
pub struct Rng(u64);

impl Rng {
    /// A stream of its own for each name and number.
    pub fn new(name: &str, number: u64) -> Self {
        let hash = name.bytes().fold(0xcbf2_9ce4_8422_2325u64, |h, b| (h ^ u64::from(b)).wrapping_mul(0x0000_0100_0000_01b3));
        Rng(hash ^ number.wrapping_mul(0xd6e8_feb8_6659_fd93))
    }

    #[inline]
    pub fn bits(&mut self) -> u64 {
        self.0 = self.0.wrapping_add(0x9e37_79b9_7f4a_7c15);
        let z = (self.0 ^ (self.0 >> 30)).wrapping_mul(0xbf58_476d_1ce4_e5b9);
        let z = (z ^ (z >> 27)).wrapping_mul(0x94d0_49bb_1331_11eb);
        z ^ (z >> 31)
    }

    /// A whole number below n, which is above 0 and small.
    #[inline]
    pub fn below(&mut self, n: usize) -> usize {
        (((self.bits() >> 32) * n as u64) >> 32) as usize
    }

    /// From 0 up to 1.
    #[inline]
    pub fn part(&mut self) -> f32 {
        (self.bits() >> 40) as f32 / (1u64 << 24) as f32
    }

    #[inline]
    pub fn range(&mut self, lo: f32, hi: f32) -> f32 {
        lo + (hi - lo) * self.part()
    }

    pub fn flag(&mut self) -> bool {
        self.bits() & 1 == 1
    }

    pub fn of<T: Copy>(&mut self, all: &[T]) -> Option<T> {
        all.get(self.below(all.len().max(1))).copied()
    }

    /// Any bit pattern.
    #[inline]
    pub fn word(&mut self) -> f32 {
        f32::from_bits(self.bits() as u32)
    }

    pub fn special(&mut self) -> f32 {
        self.of(&SPECIAL).unwrap_or(0.0)
    }

    /// x, or one of the three numbers next to it on each side.
    pub fn near(&mut self, x: f32) -> f32 {
        // patterns in the order of the numbers, those below zero below
        let ordered = |bits: u32| if bits >> 31 == 1 { -1 - i64::from(bits ^ 0x8000_0000) } else { i64::from(bits) };
        let place = ordered(x.to_bits()) + self.below(7) as i64 - 3;
        f32::from_bits(if place < 0 { (-place - 1) as u32 | 0x8000_0000 } else { place as u32 })
    }

    /// One of the given numbers, or a number next to it, of either sign.
    pub fn near_one(&mut self, of: &[f32]) -> f32 {
        let x = self.of(of).unwrap_or(0.0);
        let x = self.near(x);
        if self.flag() {
            -x
        } else {
            x
        }
    }

    /// A direction of length one, nearly.
    pub fn direction<const N: usize>(&mut self) -> [f32; N] {
        loop {
            let v: [f32; N] = std::array::from_fn(|_| self.range(-1.0, 1.0));
            let n = v.iter().map(|x| x * x).sum::<f32>();
            if n > 0.01 && n <= 1.0 {
                return v.map(|x| x / n.sqrt());
            }
        }
    }
}

/// What each word of an argument is in flight.
#[derive(Clone, Copy, Debug)]
pub enum Part {
    /// 0 or 1, in every row.
    Flag,
    /// A number within this size.
    Number(f32),
    /// Three of them.
    Vector(f32),
    /// A number from 0 up.
    Above(f32),
    /// Three of them.
    Gains(f32),
    /// Radians: mostly a turn or two, at times to beyond the limit.
    Angle,
    /// A step in seconds: mostly a few ms, at times beyond both clamps.
    Step,
    /// A direction of length one: 3 words.
    Axis,
    /// A unit quaternion: 4 words.
    Quaternion,
    /// A rotation: 9 words.
    Rotation,
    /// The length of a segment: a number from 0 up, in every row, since the Rust panics at others (no constructor makes them).
    End(f32),
}

impl Part {
    pub fn count(self) -> usize {
        match self {
            Part::Flag | Part::Number(_) | Part::Above(_) | Part::Angle | Part::Step | Part::End(_) => 1,
            Part::Vector(_) | Part::Gains(_) | Part::Axis => 3,
            Part::Quaternion => 4,
            Part::Rotation => 9,
        }
    }

    /// As in flight.
    pub fn fill(self, rng: &mut Rng, words: &mut [f32]) {
        match self {
            Part::Flag => words.fill(f32::from(u8::from(rng.flag()))),
            Part::Number(size) | Part::Vector(size) => words.iter_mut().for_each(|w| *w = rng.range(-size, size)),
            Part::Above(size) | Part::Gains(size) | Part::End(size) => words.iter_mut().for_each(|w| *w = rng.range(0.0, size)),
            Part::Angle => {
                let size = rng.of(&[3.2, 3.2, 7.0, 130.0, 260.0, 1.02 * LIMIT, 2.04 * LIMIT]).unwrap_or(7.0);
                words.iter_mut().for_each(|w| *w = rng.range(-size, size));
            }
            Part::Step => {
                let size = rng.of(&[0.002, 0.01, 0.02, 0.15, 1.0]).unwrap_or(0.01);
                words.iter_mut().for_each(|w| *w = rng.range(-0.05 * size, size));
            }
            Part::Axis => copy(words, &rng.direction::<3>()),
            Part::Quaternion => copy(words, &rng.direction::<4>()),
            Part::Rotation => copy(words, &rotation(rng.direction::<4>())),
        }
    }

    /// Puts the words back into what the Rust takes without a panic.
    fn mend(self, words: &mut [f32]) {
        match self {
            Part::Flag => words.iter_mut().for_each(|w| *w = f32::from(u8::from(w.to_bits().count_ones() % 2 == 1))),
            Part::End(_) => words.iter_mut().for_each(|w| *w = if w.is_nan() { 1.0 } else { w.abs() }),
            _ => {}
        }
    }
}

fn copy(words: &mut [f32], from: &[f32]) {
    words.iter_mut().zip(from).for_each(|(w, x)| *w = *x);
}

/// The rotation of a unit quaternion, row by row.
fn rotation([w, x, y, z]: [f32; 4]) -> [f32; 9] {
    [
        1.0 - 2.0 * (y * y + z * z),
        2.0 * (x * y - w * z),
        2.0 * (x * z + w * y),
        2.0 * (x * y + w * z),
        1.0 - 2.0 * (x * x + z * z),
        2.0 * (y * z - w * x),
        2.0 * (x * z - w * y),
        2.0 * (y * z + w * x),
        1.0 - 2.0 * (x * x + y * y),
    ]
}

/// What the Rust and document 01 decide or reckon by.
const LITERALS: [f32; 13] = [1e-9, 1e-4, 1e-3, 0.1, 0.5, 1.0, 2.0, 3.0, 9.81, 10.0, LIMIT, 2.0 * LIMIT, std::f32::consts::PI];

/// By bits: zero; the least subnormal, another and the largest; the least normal; 2^126, 2^127 and the largest; infinity;
/// NaNs that are plain, signalling and all ones; the numbers whose squares are at the ends of the range; 1e38 and 3e38.
const ENDS: [u32; 16] = [
    0,
    1,
    3,
    0x007f_ffff,
    0x0080_0000,
    0x7e80_0000,
    0x7f00_0000,
    0x7f7f_ffff,
    0x7f80_0000,
    0x7fc0_0000,
    0x7f80_0001,
    0x7fff_ffff,
    0x5f7f_ffff,
    0x2000_0000,
    0x7e96_7699,
    0x7f61_b1e6,
];

/// Each literal and one unit each side of it, and the ends, of both signs.
pub const SPECIAL: [f32; 2 * (3 * LITERALS.len() + ENDS.len())] = {
    let mut all = [0.0; 2 * (3 * LITERALS.len() + ENDS.len())];
    let mut i = 0;
    while i < all.len() / 2 {
        let size = if i < ENDS.len() {
            ENDS[i]
        } else {
            let k = i - ENDS.len();
            LITERALS[k / 3].to_bits() + (k % 3) as u32 - 1
        };
        all[2 * i] = f32::from_bits(size);
        all[2 * i + 1] = f32::from_bits(size | 0x8000_0000);
        i += 1;
    }
    all
};

/// Alters words of a row that is as in flight, to bring it to where the routine decides.
pub type Edge = fn(&mut Rng, &mut [f32]);

/// How a row came about.
#[derive(Clone, Copy, Debug, PartialEq, Eq)]
pub enum Kind {
    /// Any bits.
    Bits,
    /// Special values crossed with each other.
    Special,
    /// As in flight.
    Flight,
    /// As in flight but for a word or two.
    Damaged,
    /// Near what the routine decides by; where it has nothing of its own, numbers next to each other.
    Edge,
}

const KINDS: [Kind; 5] = [Kind::Bits, Kind::Special, Kind::Flight, Kind::Damaged, Kind::Edge];

/// The kind of the row with this number.
pub fn kind(number: u64) -> Kind {
    KINDS[(number % KINDS.len() as u64) as usize]
}

/// Fills a row for these parts.
pub fn fill(parts: &[Part], edge: Option<Edge>, name: &str, number: u64, words: &mut [f32]) {
    let mut rng = Rng::new(name, number);
    fill_as(kind(number), parts, edge, number / KINDS.len() as u64, &mut rng, words);
}

/// Fills a row of one kind; `number` counts the rows of that kind.
pub fn fill_as(kind: Kind, parts: &[Part], edge: Option<Edge>, number: u64, rng: &mut Rng, words: &mut [f32]) {
    match kind {
        Kind::Bits => words.iter_mut().for_each(|w| *w = rng.word()),
        Kind::Special => crossed(number, rng, words),
        Kind::Flight => flight(parts, rng, words),
        Kind::Damaged => {
            flight(parts, rng, words);
            damage(rng, words);
        }
        Kind::Edge => {
            flight(parts, rng, words);
            match edge {
                Some(edge) => edge(rng, words),
                None => neighbours(rng, words),
            }
        }
    }
    each(parts, words, |part, words| part.mend(words));
}

fn each(parts: &[Part], words: &mut [f32], mut f: impl FnMut(Part, &mut [f32])) {
    let mut rest = words;
    for part in parts {
        let (own, others) = rest.split_at_mut(part.count().min(rest.len()));
        f(*part, own);
        rest = others;
    }
}

fn flight(parts: &[Part], rng: &mut Rng, words: &mut [f32]) {
    each(parts, words, |part, words| part.fill(rng, words));
}

/// One or two words of a row made special, or any bits.
pub fn damage(rng: &mut Rng, words: &mut [f32]) {
    for _ in 0..1 + rng.below(2) {
        let at = rng.below(words.len().max(1));
        let word = if rng.flag() { rng.special() } else { rng.word() };
        if let Some(w) = words.get_mut(at) {
            *w = word;
        }
    }
}

/// Every combination of special values first, where there are few words; then any.
fn crossed(number: u64, rng: &mut Rng, words: &mut [f32]) {
    let all = (SPECIAL.len() as u64).checked_pow(words.len() as u32).unwrap_or(u64::MAX);
    let mut left = number;
    for w in words.iter_mut() {
        *w = if number < all && all <= 200_000 {
            let digit = left % SPECIAL.len() as u64;
            left /= SPECIAL.len() as u64;
            SPECIAL[digit as usize]
        } else {
            rng.special()
        };
    }
}

/// Numbers next to one number, of both signs and of its halves and doubles: sums of them cancel.
fn neighbours(rng: &mut Rng, words: &mut [f32]) {
    let x = if rng.flag() { rng.range(0.1, 10.0) } else { f32::from_bits(rng.word().to_bits() & 0x7fff_ffff) };
    for w in words.iter_mut() {
        let scale = rng.of(&[1.0, 1.0, 1.0, 0.5, 2.0]).unwrap_or(1.0);
        *w = rng.near_one(&[x]) * scale;
    }
}
