//! Numbers that no simulator makes, and those of flights.

use super::shield::CLASSES;
use super::{Leg, Made, Section, SetUp, Tick, ARITHMETIC, JOINT, PARTS, REQUEST, REQUESTS};
use crate::conform::Level;
use compare::answers::{filled, set_up_parts, INPUT};
use compare::generate::{Kind, Rng};
use compare::joint::bytes::SETUP_PROFILE;
use compare::steps::sincos;

pub const SECTIONS: &[Made] = &[
    Made { file: "11-dt", name: "a dt of 0, negative, NaN, infinite", words: &["A dt that is not finite and above 0 adds nothing.", "dt is put into 1e-4..0.1, and is 1e-3 if not finite."], place: PARTS, level: Level::Rule, lines: steps },
    Made { file: "12-clock", name: "a clock that has stopped growing, and one at infinity", words: &["The time never falls between resets and is never NaN; it may reach +infinity", "Sample the segment at its time, or at the first axis's t_end if the time is +infinity"], place: PARTS, level: Level::Rule, lines: clock },
    Made { file: "13-gate", name: "the governor's gate", words: &["the gate lies between g_min put into 0..1 (0 if it is not finite) and 1."], place: PARTS, level: Level::Rule, lines: gate },
    Made { file: "14-classes", name: "subnormal numbers and every other class, in every word", words: &["Every bit pattern of a float and every length of a buffer has a defined answer."], place: REQUEST, level: Level::Bits, lines: classes },
    Made { file: "15-free-fall", name: "a thrust that is next to nothing", words: &["The fallback is `desired_rate` plus `flatness_omega_ff`, and `desired_rate` alone where the latter refuses."], place: JOINT, level: Level::Bits, lines: free_fall },
    Made { file: "16-flights", name: "flights with all rotors", words: &["In the joint tick the margin's rate error is the filtered rate less RᵀR_d times the feedforward, so that a turn which was asked for is no error. Where the feedforward refuses, it is the filtered rate as before."], place: REQUESTS, level: Level::Rule, lines: |s| flights(s, 0) },
    Made { file: "17-lost-rotor-flights", name: "flights with a rotor lost", words: &["With 1 in it the reduced error steers toward the thrust axis, with no feedforward. Psi is 1 less the dot product of R's third column with it. The margin counts the first two filtered rates"], place: REQUESTS, level: Level::Rule, lines: |s| flights(s, 1) },
    Made { file: "18-any-bits", name: "any bits", words: &["One NaN is as good as another; any that is written into an image or an answer is 7fc00000, also in a word that is only kept."], place: ARITHMETIC, level: Level::Bits, lines: any_bits },
    Made { file: "19-segments", name: "segments that are mended", words: &["a duration that is not finite and above 1e-3 becomes 1e-3; a bad end position becomes the start's, any other bad number 0."], place: PARTS, level: Level::Bits, lines: segments },
];

/// A segment that moves, so that its time is seen in the margin.
fn moving() -> Leg {
    Leg::between([0.0, 1.0, -2.0, 0.5, 0.0, 0.25, 0.5, -0.5, 0.0], [3.0, 2.0, -1.0, 0.0, -0.5, 0.0, 0.25, 0.5, -1.0], 4.0)
}

fn turning(k: usize) -> Tick {
    let part = |n: usize| (k * n % 17) as f32 / 16.0 - 0.5;
    Tick::still().with(0, &[part(3), part(5), part(7)]).with(8, &[0.25 * part(2), part(11)])
}

fn steps(s: &mut Section) {
    let (nan, inf) = (f32::NAN, f32::INFINITY);
    let odd =
        [0.0, -0.0, -0.001, -1.0, nan, inf, -inf, 1e-45, 1e-38, 9.9e-5, 1e-4, 1.01e-4, 0.099, 0.1, 0.101, 0.5, f32::from_bits(0xff80_0001)];
    for profile in [0, 1] {
        s.set_up(&SetUp::new(profile).leg(&moving()).with(9, &[5.0, 0.5, 1.5]));
        for (k, dt) in odd.into_iter().cycle().take(2 * odd.len()).enumerate() {
            s.tick(&turning(k).with(10, &[dt]).with(14, &[0.5, 0.75, 1.0]));
            s.tick(&turning(k + 3));
        }
        s.look();
    }
}

fn clock(s: &mut Section) {
    let after = |s: &mut Section, dts: &[f32]| {
        for (k, dt) in dts.iter().enumerate() {
            s.tick(&turning(k).with(10, &[*dt]));
        }
    };
    for profile in [0, 1] {
        let set_up = SetUp::new(profile).leg(&moving()).with(9, &[5.0, 0.5, 1.5]);
        s.set_up(&set_up);
        // from 16384 s on a millisecond is less than half of the clock's last place
        after(
            s,
            &[1.0, 1.0, 1.0, 0.999, 0.001, 0.001, 16_380.0, 0.001, 0.001, 0.0009, 0.002, 16_384.0, 0.001, 0.003, 1e10, 0.001, 1.0, 1000.0],
        );
        after(s, &[f32::MAX, 0.001, f32::MAX, 0.001, f32::MAX, f32::NAN, -1.0, 0.001]);
        s.look();
        s.exchange(&moving());
        after(s, &[0.001, 2.0, f32::MAX, f32::MAX, 0.001]);
        // a clock that the gate holds
        s.set_up(&set_up.clone().with(14, &[0.3, 1.5, 0.0]));
        (0..4).for_each(|k| drop(s.tick(&turning(k).with(7, &[9.0, 0.0, 0.0, f32::MAX]))));
        s.look();
    }
}

fn gate(s: &mut Section) {
    let (nan, inf) = (f32::NAN, f32::INFINITY);
    for g_min in [0.25, 0.0, -0.0, 1.0, 1.5, -1.0, nan, inf, -inf, 1e-45] {
        for (lo, hi) in [(0.25, 1.5), (1.5, 0.25), (0.5, 0.5), (nan, 1.0), (0.0, inf)] {
            s.set_up(&SetUp::new(0).leg(&moving()).with(14, &[lo, hi, g_min]));
            for error in [0.25, 0.5, 1.0, 1.4999999, 1.5, 2.0, 0.0, -1.0, nan, inf, -inf] {
                s.tick(&turning(2).with(7, &[error]).with(10, &[0.25]));
            }
        }
    }
}

fn classes(s: &mut Section) {
    for profile in [0, 1] {
        s.set_up(&SetUp::new(profile).leg(&moving()));
        for at in 0..17 {
            for bits in CLASSES {
                s.tick(&turning(at).with(at, &[f32::from_bits(bits)]));
            }
        }
        s.look();
    }
    // and in a set-up, where the filter's two stay
    for at in 0..48 {
        for bits in [1, 0x007f_ffff, 0x7f7f_ffff, 0x7f80_0000, 0x7fc0_0000, 0x8000_0000, 0xff80_0001] {
            s.set_up(&SetUp::new(at as u32 % 2).leg(&moving()).with(at, &[f32::from_bits(bits)]));
            s.tick(&turning(at));
            s.tick(&turning(at + 1));
        }
    }
    s.look();
}

fn free_fall(s: &mut Section) {
    let about = [9.81 - 5e-4, 9.81 - 1e-3, 9.81 - 1.1e-3, 9.81 - 9e-4, 9.81, 9.81 + 5e-4, 9.809, 9.81 - 2e-3, 9.0, 12.0];
    for profile in [0, 1] {
        for a in about {
            s.set_up(&SetUp::new(profile).leg(&Leg::fall(2.0, a)));
            s.tick(&Tick::still());
            (0..3).for_each(|k| drop(s.tick(&turning(k).with(10, &[0.25]))));
        }
        // sideways: the thrust has its least length in another direction
        for size in [1e-3f32, 1e-9, 5e-4, 1e-8] {
            for x in [size, -size, f32::from_bits(size.to_bits() + 1), f32::from_bits(size.to_bits() - 1)] {
                let at = [0.0, 0.0, 0.0, 0.0, 0.0, 0.0, x, 0.0, 9.81];
                s.set_up(&SetUp::new(profile).leg(&Leg::between(at, [0.0, 0.0, 4.905, x, 0.0, 9.81, x, 0.0, 9.81], 1.0)));
                s.tick(&Tick::still());
                s.tick(&turning(1));
            }
        }
    }
    // quaternions so long that entries of RᵀR_d overflow and psi does not: about the third axis by twice the heading
    for leg in [Leg::rest(10.0), Leg::fall(2.0, 9.81 - 5e-4)] {
        s.set_up(&SetUp::new(0).leg(&leg).with(11, &[1e38]));
        for k in 0..60 {
            let (long, yaw) = (1.2e19 + 5e17 * (k % 7) as f32, 0.5 + 0.01 * k as f32);
            let (sine, cosine) = sincos(yaw);
            s.tick(&Tick::still().with(3, &[long * cosine, 0.0, 0.0, long * sine]).with(8, &[yaw]));
        }
    }
}

/// Near level, turning, on a segment that moves; the margin goes about its thresholds.
fn flights(s: &mut Section, profile: u32) {
    let mut rng = Rng::new("kit flights", profile.into());
    for _ in 0..6 {
        let rng = &mut rng;
        let mut set_up = SetUp::new(profile).with(9, &[1.0, 3.25, 0.75, 0.3, 0.5]);
        (0..9).chain(36..48).for_each(|at| set_up.words[at] *= rng.range(0.5, 2.0));
        for (at, size) in [(17, 5.0), (20, 0.5), (23, 0.5), (26, 5.0), (29, 0.5), (32, 0.5)] {
            (at..at + 3).for_each(|at| set_up.words[at] = rng.range(-size, size));
        }
        (set_up.words[35], set_up.words[48], set_up.words[49]) = (rng.range(4.0, 30.0), rng.range(30.0, 120.0), rng.range(300.0, 1000.0));
        s.set_up(&set_up);
        s.look();
        for k in 0..40 {
            s.tick(&flown(rng));
            if k % 10 == 9 {
                s.look();
            }
        }
    }
}

pub fn flown(rng: &mut Rng) -> Tick {
    let mut near = |size: f32| [(); 3].map(|()| rng.range(-size, size));
    let (gyro, [x, y, z], planner) = (near(0.9), near(0.2), near(2.0));
    let norm = (1.0 + x * x + y * y + z * z).sqrt();
    let delivered = [(); 3].map(|()| if rng.below(4) == 0 { rng.range(-0.2, 1.2) } else { 1.0 });
    Tick::still()
        .with(0, &gyro)
        .with(3, &[1.0 / norm, x / norm, y / norm, z / norm])
        .with(7, &[rng.range(-0.3, 2.0), rng.range(-0.5, 0.5), rng.range(-0.7, 0.7), rng.range(0.0005, 0.02)])
        .with(11, &planner)
        .with(14, &delivered)
}

/// Set-ups and ticks of each kind that the host draws; a cut-off is one that is taken.
fn any_bits(s: &mut Section) {
    const KINDS: [Kind; 4] = [Kind::Flight, Kind::Damaged, Kind::Special, Kind::Bits];
    for number in 0..32 {
        let mut rng = Rng::new("kit any bits", number);
        let mut set_up = SetUp::new(number as u32 / 4 % 2);
        set_up.words = filled::<SETUP_PROFILE>(KINDS[number as usize % 4], &set_up_parts(), &mut rng);
        set_up.words[48..].copy_from_slice(&[rng.range(20.0, 120.0), rng.range(300.0, 1000.0)]);
        s.set_up(&set_up);
        s.look();
        for k in 0..10 {
            s.tick(&Tick(filled(KINDS[(k + number as usize / 8) % 4], &INPUT, &mut rng)));
        }
        s.look();
    }
}

fn segments(s: &mut Section) {
    let (nan, inf) = (f32::NAN, f32::INFINITY);
    for t in [nan, inf, -inf, 0.0, -0.0, -1.0, 1e-45, 9.9e-4, 1e-3, 0.0010000002, 1.0, 1e10, f32::MAX] {
        let mut leg = moving();
        leg.0[18] = t;
        s.set_up(&SetUp::new(0).leg(&leg));
        s.look();
        [0.0005, 0.0005, 0.001, 0.5].into_iter().enumerate().for_each(|(k, dt)| drop(s.tick(&turning(k).with(10, &[dt]))));
        // and by an exchange
        s.set_up(&SetUp::new(1));
        s.exchange(&leg);
        s.look();
        [0.0005, 0.001, 0.5].into_iter().enumerate().for_each(|(k, dt)| drop(s.tick(&turning(k).with(10, &[dt]))));
    }
    for at in 0..18 {
        for odd in [nan, inf, -inf, f32::MAX, 1e-45] {
            let mut leg = moving();
            leg.0[at] = odd;
            s.set_up(&SetUp::new(0).leg(&leg));
            s.tick(&turning(at).with(10, &[1.5]));
        }
        s.look();
    }
}
