//! Which calls come after a set-up, and which routes: flown through as the clock goes, aimed at the coming time, with odd joins, broken ones
//! and spoilt trailers. All of it depends on the run's number alone.

use super::bytes::{put, EARLIER_LEGS, LEG, MOST_LEGS, TICK, TRAILER};
use super::model::Right;
use super::pilot::{self, Kind};
use super::route::{Legs, Source};
use super::Call;
use crate::generate::Rng;

const WORDS: usize = LEG / 4;
/// Where a leg has its end.
const END: usize = 9;

/// The calls of a run: ticks alone, and mixed with route ticks and exchanges.
pub const PLAIN: &[Call] = &[Call::Tick];
pub const MIXED: &[Call] = &[Call::Tick, Call::RouteTick, Call::Exchange];

pub struct Guide {
    rng: Rng,
    /// Whether the clock jumps far out, to where durations are lost in it.
    far: bool,
    jumped: bool,
    calls: &'static [Call],
    /// Whether every leg that is exchanged is one as in flight.
    steady_legs: bool,
    /// Which of them it is now.
    now: usize,
    /// The route of the run, its legs and as it is flown.
    legs: Vec<f32>,
    steady: Source,
}

impl Guide {
    pub fn new(number: u64, calls: &'static [Call]) -> Self {
        let mut rng = Rng::new("routes", number);
        let count = 1 + (number / 8) as usize % MOST_LEGS;
        // so long that most of it is flown in the run
        let total = 0.0025 * pilot::length(number) as f32 * rng.range(0.2, 1.2);
        let durations: Vec<f32> = (0..count).map(|_| total * rng.range(0.3, 1.7) / count as f32).collect();
        let legs = legs(&mut rng, &durations);
        let steady = Right.source(Call::RouteTick, &bytes(&legs));
        let far = calls.contains(&Call::RouteTick) && rng.below(4) == 0;
        let steady_legs = pilot::kind(number) == Kind::Pass;
        Guide { rng, far, jumped: false, calls, steady_legs, now: calls.len() - 1, legs, steady }
    }

    /// The next call: stretches of each kind, one after another.
    pub fn call(&mut self) -> Call {
        let stretch = match self.calls[self.now] {
            Call::RouteTick => 40,
            Call::Exchange => 1,
            _ => 10,
        };
        if self.calls.len() > 1 && self.rng.below(stretch) == 0 {
            self.now = (self.now + 1) % self.calls.len();
        }
        self.calls[self.now]
    }

    /// What it follows, but for what is done to a route.
    pub fn source(&self, call: Call) -> &Source {
        match call {
            Call::RouteTick => &self.steady,
            Call::SetUp | Call::Tick | Call::Exchange => &Source::Segment,
        }
    }

    /// What is lent to an exchange: the run's own leg where it is about that one; else a leg as in flight, and on no pass also one of any bits, one whose
    /// peaks are infinite, and other lengths.
    pub fn leg(&mut self, own: Option<&[f32]>) -> Vec<u8> {
        let t = self.rng.range(0.5, 30.0);
        let mut words = own.map_or_else(|| legs(&mut self.rng, &[t]), <[f32]>::to_vec);
        let way = if self.steady_legs || own.is_some() { 0 } else { self.rng.below(8) };
        let rng = &mut self.rng;
        match way {
            1 => words.iter_mut().for_each(|x| *x = rng.word()),
            2 => words.iter_mut().for_each(|x| *x = rng.special()),
            3 => words[rng.below(WORDS)] = rng.special(),
            4 => {
                words.fill(0.0);
                (words[END + rng.below(3)], words[WORDS - 1]) = (4.6e35, 1.0);
            }
            // at rest: peaks of +0.0
            5 => words[..WORDS - 1].fill(0.0),
            _ => {}
        }
        let mut leg: Vec<u8> = words.iter().flat_map(|x| x.to_bits().to_le_bytes()).collect();
        if way == 6 {
            leg.resize(rng.of(&[0, 4, 68, 72, 75, 77, 80, 84, 152, 204]).unwrap_or(0), 0);
        }
        leg
    }

    /// The route of the run, with nothing done to it.
    pub fn steady(&self) -> Vec<u8> {
        bytes(&self.legs)
    }

    /// Now and then a long step, on track.
    pub fn hurry(&mut self, input: &mut [u8; TICK]) {
        if self.far && (!self.jumped || self.rng.below(128) == 0) {
            self.jumped = true;
            let step = self.rng.of(&[0.5, 4.0, 30.0, 300.0, 4096.0, 65536.0, 16777216.0, 16777216.0, 1e30, 3e38, f32::MAX]).unwrap_or(0.5);
            put(input, 7, 0);
            put(input, 10, f32::to_bits(step));
        }
    }

    /// What is lent as the route of a call that brings the clock to this time.
    pub fn route(&mut self, call: Call, time: f32) -> Vec<u8> {
        if call != Call::RouteTick {
            return Vec::new();
        }
        let mut words = if self.far || self.rng.below(4) == 0 { self.aimed(time) } else { self.legs.clone() };
        match self.rng.below(12) {
            0 => self.odd(&mut words),
            1 | 2 => self.apart(&mut words),
            _ => {}
        }
        let mut route = bytes(&words);
        if self.rng.below(10) == 0 {
            self.spoil(&mut route);
        }
        route
    }

    /// Legs with an end at this time or next to it; or durations that are lost beside it, sum to infinity, or are any.
    fn aimed(&mut self, time: f32) -> Vec<f32> {
        let rng = &mut self.rng;
        let most = if rng.flag() { EARLIER_LEGS } else { MOST_LEGS };
        let count = 1 + rng.below(most);
        let (way, aim) = (rng.below(7), rng.below(count));
        let unit = time.next_up() - time;
        let mut end = 0.0f32;
        let durations: Vec<f32> = (0..count)
            .map(|leg| {
                let t = match way {
                    0..=3 if leg == aim => rng.near(time - end),
                    // what is mended to 1e-3
                    0 if rng.flag() => rng.of(&[f32::NAN, -1.0, 0.0, 1e-4, 1e-3, f32::INFINITY, f32::NEG_INFINITY]).unwrap_or(0.0),
                    0..=3 => time.max(0.01) * rng.range(0.2, 1.0) / count as f32,
                    4 if leg == 0 => rng.near(time),
                    4 => unit * rng.of(&[0.25, 0.5, 0.75, 1.0, 1.5, 2.0, 3.0]).unwrap_or(1.0),
                    5 => rng.of(&[3e38, f32::MAX, 1e38, 2e38, time, 1.0]).unwrap_or(1.0),
                    _ if rng.flag() => rng.special(),
                    _ => rng.word(),
                };
                end += if t.is_finite() && t > 1e-3 { t } else { 1e-3 };
                t
            })
            .collect();
        legs(rng, &durations)
    }

    /// The places of two words that face each other at a join; none where there is a single leg.
    fn join(&mut self, words: &[f32]) -> Option<(usize, usize)> {
        let joins = (words.len() / WORDS).checked_sub(1).filter(|joins| *joins > 0)?;
        let (leg, place) = (self.rng.below(joins), self.rng.below(9));
        Some((WORDS * leg + END + place, WORDS * (leg + 1) + place))
    }

    /// What meets and does not look like it: zeros of both signs, infinities, NaNs before the first leg and after the last.
    fn odd(&mut self, words: &mut [f32]) {
        if let (Some((a, b)), false) = (self.join(words), self.rng.below(4) == 0) {
            (words[a], words[b]) = self
                .rng
                .of(&[(0.0, -0.0), (-0.0, 0.0), (f32::INFINITY, f32::INFINITY), (f32::NEG_INFINITY, f32::NEG_INFINITY)])
                .unwrap_or((0.0, 0.0));
        } else {
            let (first, last) = (self.rng.below(END), words.len() - WORDS + END + self.rng.below(9));
            words[if self.rng.flag() { first } else { last }] = self.rng.special();
        }
    }

    /// A join broken in one of its nine places.
    fn apart(&mut self, words: &mut [f32]) {
        let Some((a, b)) = self.join(words) else { return };
        let nan = f32::from_bits(0x7fc0_0000);
        (words[a], words[b]) = match self.rng.below(7) {
            0 => (words[a], words[a].next_up()),
            1 => (words[a].next_down(), words[a]),
            2 => (nan, nan),
            3 => (words[a], nan),
            4 => (nan, words[b]),
            5 => (f32::INFINITY, f32::NEG_INFINITY),
            _ => (words[a], self.rng.special()),
        };
    }

    /// Another count, another distance back, another length.
    fn spoil(&mut self, route: &mut Vec<u8>) {
        let rng = &mut self.rng;
        let back = route.len() - TRAILER;
        let (count, any) = ((back / LEG) as u32, rng.bits() as u32);
        let end = |route: &mut Vec<u8>, count: u32, back: u32| {
            route.extend(count.to_le_bytes());
            route.extend(back.to_le_bytes());
        };
        let way = rng.below(8);
        if way < 5 {
            route.truncate(back);
        }
        match way {
            0 => {
                let (earlier, most) = (EARLIER_LEGS as u32, MOST_LEGS as u32);
                let other = rng
                    .of(&[0, earlier + 1, most, most + 1, count + 1, count - 1, 1 << 30, 1 << 30 | count, count << 8, u32::MAX, any])
                    .unwrap_or(0);
                end(route, other, back as u32);
            }
            1 => {
                let back = back as u32;
                end(route, count, rng.of(&[0, back + 8, back - 76, back + 76, back + 1, back << 8, u32::MAX, any]).unwrap_or(0));
            }
            // at one with each other, not with the length
            2 => {
                let other = rng.below(MOST_LEGS + 3) as u32;
                end(route, other, 76 * other);
            }
            3 => {
                route.resize(back + 4 * (1 + rng.below(19)), 0);
                end(route, count, back as u32);
            }
            // more legs than there may be, or none
            4 => {
                let durations = vec![1.0; if rng.flag() { MOST_LEGS + 1 } else { 0 }];
                *route = bytes(&legs(rng, &durations));
            }
            5 => route.truncate(rng.below(back + TRAILER)),
            6 => route.extend(vec![0; 1 + rng.below(70)]),
            _ => route[back + rng.below(TRAILER)] ^= 1 << rng.below(8),
        }
    }
}

/// Legs that meet, as in flight as far as their durations let them.
fn legs(rng: &mut Rng, durations: &[f32]) -> Vec<f32> {
    let mut some = |size: [f32; 3]| -> [f32; 9] { std::array::from_fn(|k| rng.range(-size[k / 3], size[k / 3])) };
    let (mut words, mut from) = (Vec::new(), some([5.0, 0.5, 0.5]));
    for t in durations {
        let mut to = some([5.0, 0.5, 0.5]);
        if (0.0..100.0).contains(t) {
            (0..3).for_each(|k| to[k] = from[k] + 0.5 * (from[3 + k] + to[3 + k]) * t);
        }
        words.extend(from);
        words.extend(to);
        words.push(*t);
        from = to;
    }
    words
}

/// With the trailer.
fn bytes(words: &[f32]) -> Vec<u8> {
    let trailer = [words.len() / WORDS, 4 * words.len()].map(|word| word as u32);
    words.iter().map(|x| x.to_bits()).chain(trailer).flat_map(u32::to_le_bytes).collect()
}
