//! The questions, each under the rule that it tries. Answers come of the models alone (`program`); what is drawn comes of the generator, which asks nothing of the
//! machine's mathematical library, so the vectors are the same wherever they are made.

mod checks;
mod desks;
mod exchanges;
mod flights;
mod logs;
mod patterns;
mod refused;
mod routes;
mod samples;
mod shield;

use crate::conform::{word_of, Answer, Level};
use crate::program::{Calls, Program};
use compare::joint::bytes::{put, raw, ANSWER, LEG, SETUP, SETUP_PROFILE, TICK};
use std::fmt::Write;

/// A rule and its lines.
pub struct Section<'a> {
    pub file: &'static str,
    pub name: &'static str,
    /// As docs/REQUEST.md has them, and under which of its headings.
    pub words: &'static [&'static str],
    pub place: &'static str,
    pub lines: Vec<(Level, String, Answer)>,
    program: Program<'a>,
    level: Level,
}

/// Every rule, in the order of the report.
pub fn sections(right: &Calls) -> Vec<Section<'_>> {
    let all =
        [shield::SECTIONS, flights::SECTIONS, exchanges::SECTIONS, routes::SECTIONS, refused::SECTIONS, logs::SECTIONS, checks::SECTIONS];
    let all = all.into_iter().chain([patterns::SECTIONS, desks::SECTIONS, samples::SECTIONS, desks::ON_ROUTES]).flatten();
    all.map(|made| {
        let (Made { file, name, words, place, level, lines }, program) = (*made, Program::new(right));
        let mut section = Section { file, name, words, place, lines: Vec::new(), program, level };
        lines(&mut section);
        section.put_back();
        section
    })
    .collect()
}

/// How a section is made: from this level on.
#[derive(Clone, Copy)]
pub struct Made {
    pub file: &'static str,
    pub name: &'static str,
    pub words: &'static [&'static str],
    pub place: &'static str,
    pub level: Level,
    pub lines: fn(&mut Section),
}

const PARTS: &str = "docs/REQUEST.md#rules-of-the-parts";
const REQUEST: &str = "docs/REQUEST.md#the-request";
const JOINT: &str = "docs/REQUEST.md#the-joint-tick";
const REFUSALS: &str = "docs/REQUEST.md#refusals";
const ARITHMETIC: &str = "docs/REQUEST.md#arithmetic";
const REQUESTS: &str = "docs/REQUEST.md#the-fourteen-requests";
const BEYOND: &str = "docs/REQUEST.md#beyond-what-was-asked";

impl Section<'_> {
    pub fn ask(&mut self, question: impl Into<String>) -> Answer {
        let question = question.into();
        let answer = self.program.answer(&question);
        assert!(answer != Answer::Unsupported, "{}: {question:.100}", self.file);
        self.lines.push((self.level, question, answer.clone()));
        answer
    }

    /// The lines that this asks are looked at from another level on.
    pub fn at(&mut self, level: Level, ask: impl FnOnce(&mut Self)) {
        let before = std::mem::replace(&mut self.level, level);
        ask(self);
        self.level = before;
    }

    pub fn image(&self) -> &[u8] {
        &self.program.image
    }

    pub fn set_up(&mut self, set_up: &SetUp) -> Answer {
        self.ask(format!("setup {}", word_of(&set_up.bytes())))
    }

    pub fn tick(&mut self, input: &Tick) -> Answer {
        self.ask(format!("tick {}", word_of(&input.bytes())))
    }

    pub fn route(&mut self, input: &Tick, route: &str) -> Answer {
        self.ask(format!("route {} {route}", word_of(&input.bytes())))
    }

    pub fn exchange(&mut self, leg: &Leg) -> Answer {
        self.ask(format!("exchange {}", word_of(&leg.bytes())))
    }

    /// What the call left, for those that have an image.
    pub fn look(&mut self) {
        self.at(Level::Bytes, |s| drop(s.ask("image")));
    }

    pub fn give(&mut self, image: &[u8]) {
        self.ask(format!("image {}", word_of(image)));
    }

    /// Each rule by itself: what another finds is a blank image, and a desk of the right length.
    fn put_back(&mut self) {
        for (call, blank) in [("image", "image 00*396"), ("deskimage", "deskimage 00*60")] {
            if self.lines.iter().any(|(_, question, _)| question.starts_with(call) && question != call) {
                self.at(Level::Bytes, |s| drop(s.ask(blank)));
            }
        }
    }

    /// As a file of vectors.
    pub fn text(&self) -> String {
        let mut out =
            format!("# Fosavalo {}, conformance vectors; CONFORMANCE.md has their form.\nrule {}\n", env!("CARGO_PKG_VERSION"), self.name);
        for words in self.words {
            let _ = writeln!(out, "words {words}");
        }
        let _ = writeln!(out, "where {}", self.place);
        let mut level = None;
        for (own, question, answer) in &self.lines {
            if level.replace(*own) != Some(*own) {
                let _ = writeln!(out, "level {}", own.name());
            }
            let _ = writeln!(out, "? {question}\n= {}", answer.text());
        }
        out
    }
}

/// A tick's answer, where there is one.
pub fn answered(answer: &Answer) -> [u8; ANSWER] {
    match answer {
        Answer::Said(0, buffers) => buffers.first().and_then(|bytes| bytes[..].try_into().ok()).unwrap_or([0; ANSWER]),
        _ => [0; ANSWER],
    }
}

/// A set-up at rest in a hover, whose margin is the smaller of half less psi and what a rate leaves of 40 or so.
#[derive(Clone)]
pub struct SetUp {
    pub words: [f32; SETUP_PROFILE],
    pub profile: u32,
}

impl SetUp {
    pub fn new(profile: u32) -> Self {
        let mut words = [0.0; SETUP_PROFILE];
        words[..9].copy_from_slice(&[2.0, 3.0, 1.5, 0.5, 0.25, 2.0, 0.02, 0.03, 0.04]);
        words[9..17].copy_from_slice(&[5.0, 0.5, 0.5, 0.125, 0.25, 0.3, 1.5, 0.25]);
        words[35] = 10_000.0;
        words[36..48].copy_from_slice(&[60.0, 20.0, 80.0, 0.02, 50.0, 15.0, 70.0, 0.0, 30.0, 3.0, 18.0, 0.025]);
        words[48..].copy_from_slice(&[80.0, 1000.0]);
        SetUp { words, profile }
    }

    pub fn with(mut self, at: usize, words: &[f32]) -> Self {
        self.words[at..at + words.len()].copy_from_slice(words);
        self
    }

    pub fn leg(self, leg: &Leg) -> Self {
        self.with(17, &leg.0)
    }

    pub fn bytes(&self) -> [u8; SETUP] {
        let mut bytes = raw(&self.words);
        put(&mut bytes, SETUP_PROFILE, self.profile);
        bytes
    }
}

/// Level, still, a millisecond.
#[derive(Clone)]
pub struct Tick(pub [f32; TICK / 4]);

impl Tick {
    pub fn still() -> Self {
        let mut words = [0.0; TICK / 4];
        (words[3], words[10]) = (1.0, 0.001);
        words[11..14].copy_from_slice(&[0.25, -0.5, 0.125]);
        words[14..].fill(1.0);
        Tick(words)
    }

    pub fn with(mut self, at: usize, words: &[f32]) -> Self {
        self.0[at..at + words.len()].copy_from_slice(words);
        self
    }

    /// Tilted by four times the angle whose tangent this is, with no sine.
    pub fn tilted(self, tangent: f32) -> Self {
        let square = tangent * tangent;
        self.with(3, &[(1.0 - square) / (1.0 + square), 2.0 * tangent / (1.0 + square), 0.0, 0.0])
    }

    pub fn bytes(&self) -> [u8; TICK] {
        raw(&self.0)
    }
}

/// A leg's 19 words.
#[derive(Clone)]
pub struct Leg(pub [f32; LEG / 4]);

impl Leg {
    pub fn rest(t: f32) -> Self {
        Leg::between([0.0; 9], [0.0; 9], t)
    }

    /// Position, velocity and acceleration at both ends.
    pub fn between(from: [f32; 9], to: [f32; 9], t: f32) -> Self {
        let mut words = [0.0; LEG / 4];
        words[..9].copy_from_slice(&from);
        words[9..18].copy_from_slice(&to);
        words[18] = t;
        Leg(words)
    }

    /// Down with this acceleration at all times.
    pub fn fall(t: f32, a: f32) -> Self {
        let down = |p: f32, v: f32| [0.0, 0.0, p, 0.0, 0.0, v, 0.0, 0.0, a];
        Leg::between(down(0.0, 0.0), down(0.5 * a * t * t, a * t), t)
    }

    pub fn bytes(&self) -> [u8; LEG] {
        raw(&self.0)
    }
}

/// The words of a route: these legs so many times over, and its trailer.
pub fn route_of(legs: &[Leg], times: usize) -> String {
    let bytes: Vec<u8> = legs.iter().flat_map(Leg::bytes).collect();
    let times_over = if times == 1 { word_of(&bytes) } else { format!("{}*{times}", plain(&bytes)) };
    format!("{times_over}+{}", trailer(legs.len() * times))
}

pub fn trailer(count: usize) -> String {
    plain(&[(count as u32).to_le_bytes(), ((LEG * count) as u32).to_le_bytes()].concat())
}

/// Every digit.
pub fn plain(bytes: &[u8]) -> String {
    bytes.iter().map(|byte| format!("{byte:02x}")).collect()
}
