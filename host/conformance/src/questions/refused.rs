//! What is refused: every number of every call on an image, every pair of them for their order, and that nothing changes.

use super::{route_of, trailer, Leg, Made, Section, SetUp, Tick, REFUSALS, REQUESTS};
use crate::conform::{word_of, Level};
use compare::joint::bytes::{canonical, put, IMAGE, LEG, PEAKS};
use compare::joint::refusal::stored;

const LOWEST: &[&str] = &["The call returns the number; the lowest that holds wins. Unless it is 0, no byte changes."];

pub const SECTIONS: &[Made] = &[
    Made { file: "25-cut-offs", name: "set-ups refused for their profile or their cut-off", words: &["It refuses a profile that is neither 0 nor 1 and, since request Twelve, a cut-off that would pass through."], place: super::JOINT, level: Level::Bits, lines: cut_offs },
    Made { file: "26-set-up-refused", name: "every refusal of a set-up, and every pair", words: LOWEST, place: REFUSALS, level: Level::Bytes, lines: set_ups },
    Made { file: "27-tick-refused", name: "every refusal of a tick, and every pair", words: LOWEST, place: REFUSALS, level: Level::Bytes, lines: ticks },
    Made { file: "28-route-refused", name: "every refusal of a route tick, and every pair", words: &["Refusals after 4: 6, 5, 6, 7."], place: REQUESTS, level: Level::Bytes, lines: routes },
    Made { file: "29-exchange-refused", name: "every refusal of an exchange, and every pair", words: &["Refusals of the exchange: 1, 2, 4."], place: REQUESTS, level: Level::Bytes, lines: exchanges },
    Made { file: "30-broken-images", name: "images that no call leaves", words: &["word 0 is not 99. Enter is not finite or not above 0. Exit is not above enter. Engaged is neither 0 nor 1. The time is NaN or below 0. A t_end is not finite or below 1e-3. The profile is neither 0 nor 1. A stored peak has not the bits of the one worked out from the segment."], place: REFUSALS, level: Level::Bytes, lines: broken },
    Made { file: "31-unfiltered-images", name: "images of before request Twelve", words: &["images that were set up so go on, their runs and logs as before."], place: REQUESTS, level: Level::Bytes, lines: unfiltered },
];

fn cut_offs(s: &mut Section) {
    let (nan, inf, max) = (f32::NAN, f32::INFINITY, f32::MAX);
    let about = [
        [0.0, 1000.0],
        [-0.0, 1000.0],
        [-80.0, 1000.0],
        [nan, 1000.0],
        [1e-45, 1000.0],
        [500.0, 1000.0],
        [500.00003, 1000.0],
        [499.99997, 1000.0],
        [inf, 1000.0],
        [80.0, 0.0],
        [80.0, -1000.0],
        [80.0, nan],
        [inf, inf],
        [80.0, inf],
        [max, inf],
        [1e38, 3e38],
        [1e-45, 1e-45],
        [1e-45, 4e-45],
        [1e-45, 6e-45],
        [1.7014118e38, max],
        [80.0, 1000.0],
        [0.03, 1000.0],
        [400.0, 1000.0],
    ];
    for profile in [0, 1, 2, 3, 255, 256, 257, 1 << 16, 1 << 31, 0x3f80_0000, u32::MAX] {
        let few = if profile > 1 { 3 } else { about.len() };
        for both in about.into_iter().rev().take(few).chain(about.into_iter().take(3)) {
            s.set_up(&SetUp::new(0));
            s.set_up(&SetUp { profile, ..SetUp::new(0).with(48, &both) });
            // the image that is there flies on
            s.tick(&Tick::still().with(0, &[0.5, -0.25, 0.125]));
            s.tick(&Tick::still().with(0, &[0.25, 0.5, 1.0]));
        }
    }
    s.look();
}

/// What a call is lent.
#[derive(Clone, Default)]
pub struct Lent {
    pub desk: Vec<u8>,
    pub sticks: Vec<u8>,
    pub image: Vec<u8>,
    pub input: Vec<u8>,
    pub route: Vec<u8>,
    pub room: Vec<u8>,
}

impl Lent {
    /// With these, of which a route's are the last.
    pub fn ailing(&self, ailments: &[Ailment]) -> Lent {
        let mut lent = self.clone();
        for ail in ailments {
            // after a cut nothing else can be wrong with it
            if lent.route.len() >= self.route.len() {
                ail(&mut lent);
            }
        }
        lent
    }
}

pub type Ailment = fn(&mut Lent);

/// Each by itself and every two of them.
pub fn pairs(ailments: &[Ailment]) -> Vec<Vec<Ailment>> {
    let singles = ailments.iter().map(|one| vec![*one]);
    let two = ailments.iter().enumerate().flat_map(|(at, one)| ailments[at + 1..].iter().map(move |other| vec![*one, *other]));
    std::iter::once(Vec::new()).chain(singles).chain(two).collect()
}

/// With the image before and after it.
fn ask(s: &mut Section, lent: &Lent, question: String) {
    s.give(&lent.image);
    s.ask(question);
    drop(s.ask("image"));
}

/// Lengths that are not right, about it and far from it.
fn lengths(right: usize) -> Vec<usize> {
    let mut all = vec![0, 1, 2, 3, 4, 7, 8, 12, right - 4, right - 1, right, right + 1, right + 4, 2 * right, 4096];
    all.sort_unstable();
    all.dedup();
    all
}

pub fn flying(s: &mut Section) -> Lent {
    s.set_up(&SetUp::new(0).leg(&Leg::between([1.0; 9], [2.0, 1.0, 0.0, 0.5, 0.0, 0.0, 0.0, 0.25, 0.0], 4.0)));
    (0..3).for_each(|k| drop(s.tick(&Tick::still().with(0, &[0.1 * k as f32, 0.2, -0.3]))));
    let legs = [Leg::rest(1.0), Leg::rest(2.0)];
    let route = crate::conform::bytes_of(&route_of(&legs, 1)).unwrap_or_default();
    let input = Tick::still().with(0, &[0.3, 0.1, 0.2]).bytes().to_vec();
    Lent { image: s.image().to_vec(), input, route, room: vec![0xa5; 40], ..Lent::default() }
}

fn set_ups(s: &mut Section) {
    let image: Vec<u8> = (0..IMAGE).map(|at| at as u8).collect();
    let fresh = Lent { image, input: SetUp::new(0).bytes().to_vec(), ..Lent::default() };
    let ailments: &[Ailment] = &[
        |lent| lent.image.truncate(395),
        |lent| lent.image.push(7),
        |lent| lent.input.truncate(203),
        // with a profile that is none, where there is one
        |lent| lent.input.extend([0; 4]),
        |lent| put(&mut lent.input, 50, 2),
        |lent| put(&mut lent.input, 48, 0),
    ];
    for pair in pairs(ailments) {
        let lent = fresh.ailing(&pair);
        let input = word_of(&lent.input);
        ask(s, &lent, format!("setup {input}"));
    }
    for length in lengths(IMAGE) {
        let lent = Lent { image: vec![0x5a; length], ..fresh.clone() };
        ask(s, &lent, format!("setup {}", word_of(&lent.input)));
    }
    for length in lengths(204) {
        let mut lent = fresh.clone();
        lent.input.resize(length, 0);
        let input = word_of(&lent.input);
        ask(s, &lent, format!("setup {input}"));
    }
}

const OF_A_TICK: [Ailment; 9] = [
    |lent| lent.image.truncate(395),
    |lent| lent.image.push(7),
    |lent| lent.input.truncate(67),
    |lent| lent.input.push(0),
    |lent| lent.room.truncate(39),
    |lent| lent.room.push(0xa5),
    |lent| put(&mut lent.image, 15, 2),
    |lent| put(&mut lent.image, 96, 1),
    |lent| put(&mut lent.image, 0, 95),
];

fn ticks(s: &mut Section) {
    let fresh = flying(s);
    for pair in pairs(&OF_A_TICK) {
        let lent = fresh.ailing(&pair);
        let [input, room] = [&lent.input, &lent.room].map(|bytes| word_of(bytes));
        ask(s, &lent, format!("tick {input} {room}"));
        s.give(&lent.image);
        s.ask(format!("refusal {} {}", lent.input.len(), lent.room.len()));
    }
    for length in lengths(IMAGE) {
        let mut lent = fresh.clone();
        lent.image.resize(length, 0);
        let input = word_of(&lent.input);
        ask(s, &lent, format!("tick {input} a5*40"));
        s.ask("refusal 68 40");
    }
    s.give(&fresh.image);
    for length in lengths(68) {
        let mut input = fresh.input.clone();
        input.resize(length, 0);
        s.ask(format!("tick {} a5*40", word_of(&input)));
        s.ask(format!("refusal {length} 40"));
    }
    for length in lengths(40) {
        s.ask(format!("tick {} {}", word_of(&fresh.input), word_of(&vec![0xa5; length])));
        s.ask(format!("refusal 68 {length}"));
    }
    drop(s.ask("image"));
}

/// Of a route of two legs: 6, 5, 5, 6, 6, 6, 7, 7.
pub const OF_A_ROUTE: [Ailment; 8] = [
    |lent| lent.route.truncate(7),
    |lent| lent.route.splice(152.., [0, 0, 0, 0, 0, 0, 0, 0]).for_each(drop),
    |lent| lent.route.splice(152.., [33, 0, 0, 0, 0xcc, 9, 0, 0]).for_each(drop),
    |lent| lent.route.splice(152.., [2, 0, 0, 0, 160, 0, 0, 0]).for_each(drop),
    // a leg more than is counted
    |lent| lent.route.splice(152.., [1, 0, 0, 0, 76, 0, 0, 0]).for_each(drop),
    |lent| lent.route.push(0),
    |lent| put(&mut lent.route, 9, 1),
    |lent| put(&mut lent.route, 19, 0x7fc0_0000),
];

/// Routes with the trailer where it would be looked for, and the legs cut or with more behind them.
pub fn any_lengths() -> Vec<String> {
    let mut all = Vec::new();
    for count in [0, 1, 2, 32, 33] {
        for length in [0, 1, 4, 7, 8, 9, 75, 76, 83, 84, 85, 159, 160, 161, 2439, 2440, 2441, 2516, 4096] {
            let legs = if length > 8 { format!("00*{}+", length - 8) } else { String::new() };
            all.push(if length >= 8 { format!("{legs}{}", trailer(count)) } else { word_of(&vec![0; length]) });
        }
    }
    all
}

fn routes(s: &mut Section) {
    let fresh = flying(s);
    let ailments: Vec<Ailment> = OF_A_TICK.into_iter().step_by(2).chain(OF_A_ROUTE).collect();
    for pair in pairs(&ailments) {
        let lent = fresh.ailing(&pair);
        let [input, route, room] = [&lent.input, &lent.route, &lent.room].map(|bytes| word_of(bytes));
        ask(s, &lent, format!("route {input} {route} {room}"));
    }
    s.give(&fresh.image);
    for route in any_lengths() {
        s.ask(format!("route {} {route} a5*40", word_of(&fresh.input)));
    }
    drop(s.ask("image"));
}

fn exchanges(s: &mut Section) {
    let fresh = Lent { input: Leg::rest(2.0).bytes().to_vec(), ..flying(s) };
    let ailments: Vec<Ailment> = vec![
        OF_A_TICK[0],
        OF_A_TICK[1],
        |lent| lent.input.truncate(75),
        |lent| lent.input.push(0),
        OF_A_TICK[6],
        OF_A_TICK[7],
        OF_A_TICK[8],
    ];
    for pair in pairs(&ailments) {
        let lent = fresh.ailing(&pair);
        let input = word_of(&lent.input);
        ask(s, &lent, format!("exchange {input}"));
    }
    for length in lengths(IMAGE) {
        let mut lent = fresh.clone();
        lent.image.resize(length, 0);
        let input = word_of(&lent.input);
        ask(s, &lent, format!("exchange {input}"));
    }
    for length in lengths(LEG) {
        s.give(&fresh.image);
        s.ask(format!("exchange {}", word_of(&vec![0; length])));
        drop(s.ask("image"));
    }
}

/// The peaks that go with an image's segment.
fn with_peaks(image: &mut [u8]) {
    let peaks = stored(image).peak_abs_jerk();
    peaks.into_iter().zip(PEAKS..).for_each(|(peak, at)| put(image, at, canonical(peak)));
}

/// An image by all three calls that look at it.
fn by_all(s: &mut Section, image: &[u8]) {
    let input = word_of(&Tick::still().bytes());
    for call in [
        format!("tick {input} a5*40"),
        format!("route {input} {} a5*40", route_of(&[Leg::rest(1.0)], 1)),
        format!("exchange {}", word_of(&Leg::rest(2.0).bytes())),
    ] {
        s.give(image);
        s.ask("refusal 68 40");
        s.ask(call);
        drop(s.ask("image"));
    }
}

fn broken(s: &mut Section) {
    let image = flying(s).image;
    let bits = |x: f32| x.to_bits();
    let exit = compare::joint::bytes::word(&image, 14);
    let enter = compare::joint::bytes::word(&image, 13);
    let (nan, inf) = (0x7fc0_0000, 0x7f80_0000);
    let words: [(usize, &[u32]); 6] = [
        (0, &[0, 95, 96, 98, 100, 99 << 8, 99 | 1 << 16, 0x42c6_0000]),
        (13, &[0, 0x8000_0000, nan, inf, 0xff80_0000, bits(-0.125), 1, exit, exit - 1, exit + 1]),
        (14, &[enter, enter - 1, enter + 1, nan, inf, 0xff80_0000, 0]),
        (15, &[0, 2, 3, 256, 1 << 24, 1 << 31, bits(1.0), u32::MAX]),
        (16, &[nan, 0x8000_0000, 0x8000_0001, inf, 0xff80_0000, bits(-1.0), bits(1e30), 0xff80_0001]),
        (95, &[1, 2, 3, 255, 256, 1 << 16, bits(1.0), u32::MAX]),
    ];
    for (at, all) in words {
        for new in all {
            let mut damaged = image.clone();
            put(&mut damaged, at, *new);
            by_all(s, &damaged);
        }
    }
    // an end of each axis, with the peaks that go with it
    for at in [26, 33, 40] {
        for end in [nan, inf, 0, bits(5e-4), bits(1e-3), bits(1e-3) - 1, bits(1e-3) + 1, bits(-1.0)] {
            let mut damaged = image.clone();
            put(&mut damaged, at, end);
            with_peaks(&mut damaged);
            by_all(s, &damaged);
        }
    }
    // a peak of each axis
    for at in PEAKS..PEAKS + 3 {
        let own = compare::joint::bytes::word(&image, at);
        for new in [own ^ 1, own ^ 1 << 31, nan, inf, 0] {
            let mut damaged = image.clone();
            put(&mut damaged, at, new);
            by_all(s, &damaged);
        }
    }
    // at rest they are zero, and -0.0 is another's bits; of a segment that is too fast they are infinite, and a NaN is another's
    let still = Leg::rest(4.0);
    let mut fast = Leg::rest(1.0);
    fast.0[9..12].fill(4.6e35);
    for (leg, stored) in [(still, [0x8000_0000, 0]), (fast, [nan, 0xff80_0000])] {
        s.set_up(&SetUp::new(0).leg(&leg));
        s.look();
        s.tick(&Tick::still());
        let image = s.image().to_vec();
        for at in PEAKS..PEAKS + 3 {
            for new in stored {
                let mut damaged = image.clone();
                put(&mut damaged, at, new);
                by_all(s, &damaged);
            }
        }
    }
    by_all(s, &[0; IMAGE]);
    by_all(s, &[0xff; IMAGE]);
}

fn unfiltered(s: &mut Section) {
    for profile in [0, 1] {
        s.set_up(&SetUp::new(profile));
        let mut image = s.image().to_vec();
        for axis in 0..3 {
            (1..9).for_each(|k| put(&mut image, 68 + 9 * axis + k, 0));
            put(&mut image, 68 + 9 * axis, 1.0f32.to_bits());
        }
        s.give(&image);
        for k in 0..12 {
            let rate = [1.2, 1.3, 1.1, 0.5][k % 4];
            s.tick(&Tick::still().with(0, &[rate, 0.1 * k as f32, -rate]).with(9, &[-rate]));
        }
        drop(s.ask("image"));
        s.exchange(&Leg::rest(3.0));
        s.route(&Tick::still().with(0, &[0.5, 0.5, 0.5]), &route_of(&[Leg::rest(1.0)], 1));
        drop(s.ask("image"));
    }
}
