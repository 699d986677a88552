//! Who flies: the shield, what it passes on, and its thresholds.

use super::{answered, plain, route_of, Leg, Made, Section, SetUp, Tick, PARTS, REQUEST, REQUESTS};
use crate::conform::{word_of, Level};
use compare::generate::Rng;
use compare::joint::bytes::float;
use compare::slow;

const STEP: &[&str] = &[
    "engaged: released by a finite margin strictly above exit and by nothing else, at once. Released: engaged by a margin that is not finite or below enter",
];

pub const SECTIONS: &[Made] = &[
    Made { file: "01-pasts", name: "who flies, after every past of four", words: STEP, place: PARTS, level: Level::Rule, lines: |s| pasts(s, 0, Way::Plain) },
    Made { file: "02-pasts-exchanged", name: "the same across exchanges", words: &["Shield, ADRC and filters go on, so demand 3 runs on across it"], place: REQUESTS, level: Level::Rule, lines: |s| pasts(s, 0, Way::Exchanged) },
    Made { file: "03-pasts-on-a-route", name: "the same on a route", words: &["A route tick flies it in place of the image's segment"], place: REQUESTS, level: Level::Rule, lines: |s| pasts(s, 0, Way::Route) },
    Made { file: "04-lost-rotor-pasts", name: "the same with a rotor lost, where a heading is not read", words: LOST, place: REQUESTS, level: Level::Rule, lines: |s| pasts(s, 1, Way::Plain) },
    Made { file: "05-lost-rotor-exchanged", name: "with a rotor lost across exchanges", words: LOST, place: REQUESTS, level: Level::Rule, lines: |s| pasts(s, 1, Way::Exchanged) },
    Made { file: "06-lost-rotor-on-a-route", name: "with a rotor lost on a route", words: LOST, place: REQUESTS, level: Level::Rule, lines: |s| pasts(s, 1, Way::Route) },
    Made { file: "07-planner-words", name: "planner words of every class", words: &["What is passed on has its non-finite numbers made zero, the fallback's too, and the flag says whose it is."], place: REQUEST, level: Level::Rule, lines: planner_words },
    Made { file: "08-thresholds", name: "thresholds that are mended", words: &["enter: kept if finite and above 0, else 0.1. exit: kept if finite and above enter, else twice enter (which may be +infinity: the planner never flies). It starts engaged, the fallback in control"], place: PARTS, level: Level::Rule, lines: thresholds },
    Made { file: "09-headings", name: "headings that are no numbers, and at 8192", words: &["a heading that is no number gives a zero heading vector, and so a refusal", "Sine and cosine serve sizes up to 8192 with the same P, bound and exact value; beyond, the old rule."], place: PARTS, level: Level::Rule, lines: headings },
    Made { file: "10-flags", name: "flags of a list of margins", words: &["From a list of up to 65,535 margins the flags, each by looking back, with no latch; proved equal to the stepping shield's."], place: REQUESTS, level: Level::Rule, lines: flags },
];

const LOST: &[&str] = &[
    "Yaw and R_d are not used, the planner's third number is zero, and the third axis is left alone at zero torque. Where the thrust axis refuses: fallback zero, psi NaN, margin minus infinity.",
];

/// Tilts for a margin below enter, at it, between, at exit, above it: the margins of the second and the fourth become the thresholds.
const TILTS: [f32; 5] = [15.0 / 64.0, 27.0 / 128.0, 23.0 / 128.0, 19.0 / 128.0, 3.0 / 64.0];

#[derive(Clone, Copy, PartialEq)]
enum Way {
    Plain,
    Exchanged,
    Route,
}

/// Every past of four ticks over six kinds of margin, the sixth with no attitude to go to, in one run: a sequence of de Bruijn's.
fn pasts(s: &mut Section, profile: u32, way: Way) {
    let set_up = set_up_at_margins(profile);
    s.set_up(&set_up);
    let rest = route_of(&[Leg::rest(0.25), Leg::rest(5_000.0)], 1);
    let falling = route_of(&[Leg::fall(4.0, 9.81)], 1);
    for (n, kind) in sequence().into_iter().enumerate() {
        if way == Way::Exchanged && n % 5 == 2 {
            s.exchange(&Leg::rest(100.0 + n as f32));
        }
        let tick = Tick::still().with(13, &[0.125 * (n % 7) as f32]).tilted(TILTS[kind.min(4)]);
        // not read where a rotor is lost: what is no number there has no effect
        let tick = if profile == 1 && n % 2 == 0 { tick.with(8, &[f32::NAN, f32::INFINITY]) } else { tick };
        match (kind, profile, way) {
            (5, 0, Way::Route) => s.route(&tick.with(8, &[f32::NAN]), &rest),
            (5, 0, _) => s.tick(&tick.with(8, &[f32::NAN])),
            (5, _, _) => s.route(&tick, &falling),
            (_, _, Way::Route) => s.route(&tick, &rest),
            _ => s.tick(&tick),
        };
    }
    s.look();
}

/// The set-up whose thresholds are the very margins of two attitudes.
fn set_up_at_margins(profile: u32) -> SetUp {
    let right = crate::program::Calls::right();
    let margin = |tilt: f32| {
        let mut program = crate::program::Program::new(&right);
        program.answer(&format!("setup {}", word_of(&SetUp::new(profile).bytes())));
        float(&answered(&program.answer(&format!("tick {}", word_of(&Tick::still().tilted(tilt).bytes())))), 9)
    };
    let (enter, exit) = (margin(TILTS[1]), margin(TILTS[3]));
    SetUp::new(profile).with(12, &[enter, exit])
}

/// 1296 kinds and three more, so that each past of four is met once.
fn sequence() -> Vec<usize> {
    const KINDS: usize = 6;
    const LONG: usize = 4;
    fn extend(at: usize, period: usize, word: &mut [usize; LONG + 1], all: &mut Vec<usize>) {
        if at > LONG {
            if LONG % period == 0 {
                all.extend_from_slice(&word[1..=period]);
            }
            return;
        }
        word[at] = word[at - period];
        extend(at + 1, period, word, all);
        for kind in word[at - period] + 1..KINDS {
            word[at] = kind;
            extend(at + 1, at, word, all);
        }
    }
    let mut all = Vec::new();
    extend(1, 1, &mut [0; LONG + 1], &mut all);
    all.extend_from_within(..LONG - 1);
    all
}

/// Of each class, both signs: zeros, subnormal numbers, the least and the largest, infinities, NaNs that are quiet, signalling and all ones.
pub const CLASSES: [u32; 22] = [
    0,
    1,
    0x0040_0000,
    0x007f_ffff,
    0x0080_0000,
    0x3f80_0000,
    0x7f7f_ffff,
    0x7f80_0000,
    0x7f80_0001,
    0x7fc0_0000,
    0x7fff_ffff,
    0x8000_0000,
    0x8000_0001,
    0x8040_0000,
    0x807f_ffff,
    0x8080_0000,
    0xbf80_0000,
    0xff7f_ffff,
    0xff80_0000,
    0xff80_0001,
    0xffc0_0000,
    0xffff_ffff,
];

fn planner_words(s: &mut Section) {
    for profile in [0, 1] {
        s.set_up(&set_up_at_margins(profile));
        // the fallback flies until the second tilt
        for tilt in [TILTS[0], TILTS[4]] {
            for bits in CLASSES {
                for at in 11..14 {
                    s.tick(&Tick::still().tilted(tilt).with(at, &[f32::from_bits(bits)]));
                }
            }
            for bits in [0x7f80_0001, 0xffff_ffff, 0x8000_0000] {
                s.tick(&Tick::still().tilted(tilt).with(11, &[f32::from_bits(bits); 3]));
            }
        }
        s.look();
    }
}

fn thresholds(s: &mut Section) {
    let (nan, inf) = (f32::NAN, f32::INFINITY);
    let odd = [nan, inf, -inf, 0.0, -0.0, -0.25, 1e-45, 0.125, 0.3, 2e38, f32::MAX];
    for enter in odd {
        for exit in [nan, inf, 0.0, -1.0, 0.125, 0.3, 0.30000004, 0.4] {
            s.set_up(&SetUp::new(0).with(12, &[enter, exit]));
            for at in [0, 12, 24, 30, 26, 20, 10, 4, 16, 22, 14, 2, 18, 28] {
                s.tick(&Tick::still().tilted(at as f32 / 128.0));
            }
        }
    }
}

fn headings(s: &mut Section) {
    let odd = [0x7f80_0000, 0xff80_0000, 0x7fc0_0000, 0x7f80_0001, 0xffff_ffff].map(f32::from_bits);
    s.set_up(&SetUp::new(0));
    for heading in odd {
        for yaw in [0.0, heading, 0.5, 0.75, heading, 0.75, 0.0, 0.6] {
            s.tick(&Tick::still().with(8, &[yaw]));
        }
        s.tick(&Tick::still().with(8, &[0.0, heading]));
        s.tick(&Tick::still().with(8, &[0.3, 0.0]));
    }
    for turns in 0..40 {
        s.tick(&Tick::still().with(8, &[turns as f32 * 0.25]));
        s.tick(&Tick::still().with(8, &[turns as f32 * -3.0]));
    }
    // from here on another sine may have another limit
    s.at(Level::Bits, |s| {
        for size in [
            128.0f32,
            129.0,
            804.2477,
            4096.0,
            8191.0,
            8192.0,
            8193.0,
            16384.0,
            1e10,
            f32::MAX,
            1e-45,
            1e-3,
            std::f32::consts::FRAC_PI_2,
            std::f32::consts::PI,
            4.712389,
        ] {
            for yaw in [f32::from_bits(size.to_bits() - 1), size, f32::from_bits(size.to_bits() + 1)] {
                s.tick(&Tick::still().with(8, &[yaw, 0.5]));
                s.tick(&Tick::still().with(8, &[-yaw, -0.5]));
            }
        }
        let mut rng = Rng::new("kit headings", 0);
        for _ in 0..60 {
            s.tick(&Tick::still().with(8, &[rng.range(-8192.0, 8192.0), rng.range(-1.0, 1.0)]));
        }
        s.look();
    });
}

fn words(x: f32) -> String {
    plain(&x.to_bits().to_le_bytes())
}

fn flags(s: &mut Section) {
    let ask = |s: &mut Section, margins: &[f32], enter: f32, exit: f32| {
        drop(s.ask(format!("flags {} {} {}", word_of(&slow::words(margins)), words(enter), words(exit))));
    };
    // every past of four, of a list
    let band = [0.25, 0.5, 0.75, 1.0, 1.5, f32::NAN];
    let pasts: Vec<f32> = sequence().into_iter().map(|kind| band[kind]).collect();
    ask(s, &pasts, 0.5, 1.0);
    ask(s, &[], 0.5, 1.0);
    let mut rng = Rng::new("kit flags", 0);
    for n in 0..60 {
        let ((enter, exit), margins) = slow::drawn(&mut rng, n);
        ask(s, &margins, enter, exit);
    }
    for odd in [f32::INFINITY, f32::NEG_INFINITY, f32::NAN, f32::from_bits(0xff80_0001), f32::MAX] {
        ask(s, &[1.5, odd, 0.75, odd, 1.5, 0.75], 0.5, 1.0);
        ask(s, &[1.5, 0.15, 0.05, 0.25], odd, 0.0);
        ask(s, &[1.5, 0.75, 0.25, 1.5], 0.5, odd);
    }
    // at their limits: the last margins decide
    s.at(Level::Bits, |s| {
        for most in [65_534, 65_535, 65_536] {
            drop(s.ask(format!("flags 0000c03f*{} {} {}", most, words(0.5), words(1.0))));
        }
    });
    s.at(Level::Bytes, |s| {
        let lent = [
            ("0000c03f*3", "a5*3"),
            ("0000c03f*3", "a5*2"),
            ("0000c03f*3", "a5*4"),
            ("0000c03f*3+00", "a5*3"),
            ("-", "-"),
            ("-", "a5"),
            ("0000c03f", "-"),
        ];
        for (margins, room) in lent.into_iter().chain([("0000c03f*65536", "a5*65536"), ("0000c03f*65535", "a5*65536")]) {
            drop(s.ask(format!("flags {margins} {} {} {room}", words(0.5), words(1.0))));
        }
    });
}
