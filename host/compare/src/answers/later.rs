//! The calls of later requests: the sample of a route and the refusal of a tick, the check of a log, patterns.

use super::{buffer, damage_at, flown_a_little, length, lent, route, Call, Lent, Section, KINDS, MORE, PLACES};
use crate::audit::{self, sweep, Given};
use crate::generate::{Kind, Rng};
use crate::joint::bytes::{float, put, word, ANSWER, IMAGE, LEG, MOST_LEGS, TICK, TRAILER};
use crate::joint::model::Right;
use crate::joint::refusal::Refusals;
use crate::joint::sample::{self, SAMPLE};
use crate::log;
use crate::pattern::{self, Item};
use crate::slow;

const SAMPLES: u64 = 240;
const ASKED: u64 = 240;
const CHECKS: u64 = 320;
const PATTERNS: u64 = 240;

/// The most that `replay` has room for in a route, a log or a pattern.
const ROOM: usize = 2520;

/// Words that are lent whole.
fn whole(words: &[u32]) -> Lent {
    Lent { bytes: words.iter().flat_map(|word| word.to_le_bytes()).collect(), len: 4 * words.len() }
}

/// These bytes, and behind them what stood there, up to a word.
fn held(rng: &mut Rng, bytes: &[u8]) -> Lent {
    let mut all = buffer(rng, bytes.len().next_multiple_of(4) + MORE, &[]);
    all[..bytes.len()].copy_from_slice(bytes);
    Lent { bytes: all, len: bytes.len() }
}

/// At a time near the end of a leg, on the route, below 0, past all ends; special ones, and any bits.
pub(super) fn samples() -> Section {
    let rows = (0..SAMPLES).map(|n| {
        let mut rng = Rng::new("stored samples", n);
        let end = rng.range(0.5, 8.0);
        let kind = if n % 2 == 0 { Kind::Flight } else { KINDS[(n / 2 % 4) as usize] };
        let mut route = route(&mut rng, kind, end);
        let time = match rng.below(11) {
            // so far out and so fast that the place is not finite
            0 if route.len() > LEG / 4 => {
                (route[0], route[3], route[18]) = (3e38f32.to_bits(), 3e38f32.to_bits(), 4f32.to_bits());
                2.0
            }
            1 => rng.word(),
            2 => rng.special(),
            3 => -end,
            4 => f32::NAN,
            5..=7 => rng.near(end),
            _ => end * rng.range(0.0, 1.5),
        };
        let (c, d) = (lent(&mut rng, SAMPLE, &[]), lent(&mut rng, 4 * route.len(), &route));
        Call { a: Lent::NONE, b: whole(&[time.to_bits()]), c, d, at: 0 }
            .row(|_, time, sample, route, _| sample::expected(sample::Fault::None, route, float(time, 0), sample))
    });
    Section::calls("route sample", 508, rows.collect())
}

/// Most of the images have a word replaced, and a length is now and then none that a tick has.
pub(super) fn tick_refusals() -> Section {
    let rows = (0..ASKED).map(|n| {
        let mut rng = Rng::new("stored tick refusals", n);
        let mut image = flown_a_little(&mut rng, n);
        if n % 4 != 0 {
            damage_at(&mut rng, &mut image, n as usize % PLACES);
        }
        let b = Lent { bytes: image, len: length(&mut rng, IMAGE) };
        let lengths = [TICK, ANSWER].map(|right| match rng.below(16) {
            0 => rng.bits() as u32,
            1 => right as u32 | 1 << 16,
            _ => length(&mut rng, right) as u32,
        });
        Call { a: Lent::NONE, b, c: Lent::NONE, d: whole(&lengths), at: 0 }
            .row(|_, image, _, lengths, _| Right.of_tick(image, word(lengths, 0) as usize, word(lengths, 1) as usize))
    });
    Section::calls("tick refusal", 509, rows.collect())
}

/// Logs as another box writes them: right ones, with a record or more spoilt, with other thresholds or the other profile, and bytes that are no log.
pub(super) fn checks() -> Section {
    let rows = (0..CHECKS).map(|n| {
        let mut rng = Rng::new("stored checks", n);
        let rng = &mut rng;
        let mut given = Given { profile: (n % 2) as u32, enter: slow::threshold(rng), exit: slow::threshold(rng) };
        let count = rng.of(&[0, 1, 2, 3, 4, 6, 8, 12, 16, 23]).unwrap_or(1);
        let mut records = sweep::other(rng, given, count);
        for _ in 0..rng.below(4).min(count) {
            let place = rng.below(count);
            sweep::spoil(rng, &mut records[place], given);
        }
        match rng.below(8) {
            0 => (given.enter, given.exit) = (slow::threshold(rng), slow::threshold(rng)),
            1 => given.profile = 1 - given.profile,
            2 => given.profile = rng.of(&sweep::PROFILES).unwrap_or(2),
            _ => {}
        }
        let mut d = held(rng, &sweep::log_of(&records));
        match rng.below(10) {
            0 => {
                let trailer = (d.len - log::TRAILER) / 4;
                let any = rng.bits() as u32;
                let other = rng.of(&[0, 1, 107, 109, 1 << 30, count as u32 + 1, any]).unwrap_or(0);
                put(&mut d.bytes, trailer + rng.below(3), other);
            }
            1 => d.len = length(rng, d.len),
            _ => {}
        }
        let b = whole(&[given.profile, given.enter.to_bits(), given.exit.to_bits()]);
        Call { a: Lent::NONE, b, c: lent(rng, 4, &[]), d, at: 0 }.row(|_, given, verdict, log, _| {
            let given = Given { profile: word(given, 0), enter: float(given, 1), exit: float(given, 2) };
            audit::model::check(log, given, verdict)
        })
    });
    Section::calls("log check", 510, rows.collect())
}

/// Trees about what decides: so many legs that a narrow count goes round; repeats of no times and of too many; legs that do not meet, before a repeat, across a
/// round and across an empty one; an end that is not the beginning; repeats four and five deep, around a leg and around nothing; and a repeat that is longer and
/// shorter than what it holds.
fn telling(rng: &mut Rng) -> Vec<(Vec<Item>, Vec<u8>)> {
    let mut leg = |from: usize, to: usize| pattern::leg(rng, from, to);
    let mut trees = vec![
        vec![Item::Repeat(2, vec![leg(1, 2), leg(2, 1)]), leg(1, 0)],
        vec![leg(0, 0), Item::Repeat(0, vec![leg(0, 0)])],
        vec![Item::Repeat(10, vec![leg(0, 0)])],
        vec![Item::Repeat(b'2', vec![leg(0, 0)])],
        vec![leg(0, 1), Item::Repeat(2, vec![leg(0, 0)])],
        vec![Item::Repeat(2, vec![leg(0, 1)])],
        vec![leg(0, 1), Item::Repeat(3, Vec::new()), leg(0, 0)],
        vec![leg(0, 1), leg(2, 0)],
        vec![Item::Repeat(9, vec![Item::Repeat(9, Vec::new())])],
    ];
    for deep in [4, 5] {
        for inner in [vec![leg(0, 0)], Vec::new()] {
            let nest = (0..deep).fold(inner, |inner, _| vec![Item::Repeat(1, inner)]);
            trees.push([nest, vec![leg(0, 0)]].concat());
        }
    }
    let once = vec![Item::Repeat(1, vec![leg(0, 0)])];
    trees.extend(pattern::large(rng));
    let off = [76, 78].map(|length| {
        let mut bytes = pattern::written(&once).0;
        bytes[2] = length;
        (once.clone(), bytes)
    });
    let written = |items: Vec<Item>| {
        let bytes = pattern::written(&items).0;
        (items, bytes)
    };
    trees.into_iter().map(written).chain(off).collect()
}

/// These, and any trees, whole and damaged, with room that is right and room that is not.
pub(super) fn patterns() -> Section {
    let any = |n: u64| {
        let mut rng = Rng::new("stored trees", n);
        let items = pattern::any(&mut rng);
        let whole = pattern::written(&items);
        let bytes = if rng.below(3) == 0 { pattern::damaged(&mut rng, whole) } else { whole.0 };
        (items, bytes)
    };
    let all = telling(&mut Rng::new("stored trees", PATTERNS));
    let told = all.len() as u64;
    let fits = |(_, bytes): &(Vec<Item>, Vec<u8>)| bytes.len() <= ROOM - 2 * MORE;
    let rows = all.into_iter().chain((0..PATTERNS).map(any)).zip(0..).filter(|(tree, _)| fits(tree)).map(|((items, bytes), n)| {
        let mut rng = Rng::new("stored patterns", n);
        let rng = &mut rng;
        // more legs are refused unseen
        let needed = pattern::count(pattern::Fault::None, &items).min(MOST_LEGS as u64 + 1) as usize * LEG + TRAILER;
        let room = match rng.below(8) {
            _ if n < told => needed,
            0 => needed - 1,
            1 => needed - TRAILER,
            2 => rng.below(needed),
            3 => needed + 1 + rng.below(20),
            _ => needed,
        };
        let before = buffer(rng, room.min(ROOM - MORE), &[]);
        let (a, c) = (held(rng, &before), lent(rng, 4, &[]));
        let d = held(rng, &bytes);
        Call { a, b: Lent::NONE, c, d, at: 0 }
            .row(|route, _, length, pattern, _| pattern::expand(pattern::Fault::None, pattern, route, length))
    });
    Section::calls("pattern", 511, rows.collect())
}
