//! A curved pass: half round a stage, the camera on its middle all the way, so that a yaw rate is commanded throughout. The planner does what is
//! asked and nothing is wrong. By request Four the shield leaves it control; by document 01's margin, worked out here beside the flight from the
//! same ticks, it would have lost it.

use crate::flight::{Flight, Rule};
use crate::output;
use crate::pass::{self, Choice, Heading, Way, SECONDS};
use crate::picture::{Picture, Row};
use crate::ticks::Ticks;
use crate::vector::V3;
use fosavalo::{Answer, Image, Leg, Pilot, RecoverableSet, Refusal, Route};
use std::fmt::Write;
use std::io;
use std::path::Path;

/// How far from the middle and how high, m; NED, so up is below zero.
const RADIUS: f64 = 4.0;
const HEIGHT: f64 = -4.0;
/// How far round, rad, and in how many legs.
const ROUND: f64 = 3.0;
const LEGS: usize = 6;

/// Which way the middle is at a time, how fast that turns, and how fast that changes: from rest to rest.
fn turn(seconds: f64) -> [f64; 3] {
    let x = (seconds / SECONDS).clamp(0.0, 1.0);
    [
        ROUND * (x * x * x * (10.0 + x * (6.0 * x - 15.0)) - 0.5),
        ROUND * 30.0 * x * x * (1.0 + x * (x - 2.0)) / SECONDS,
        ROUND * 60.0 * x * (1.0 + x * (2.0 * x - 3.0)) / (SECONDS * SECONDS),
    ]
}

/// Position, velocity and acceleration on the circle at a time.
fn on_the_circle(seconds: f64) -> [V3; 3] {
    let [angle, rate, change] = turn(seconds);
    let (c, s) = (f64::from(fosavalo::cosf(angle as f32)), f64::from(fosavalo::sinf(angle as f32)));
    let along = |outward: f64, forward: f64| [RADIUS * (forward * s - outward * c), RADIUS * (-forward * c - outward * s), 0.0];
    let [x, y, _] = along(1.0, 0.0);
    [[x, y, HEIGHT], along(0.0, rate), along(-rate * rate, change)]
}

/// The circle by legs, each of which begins and ends as the circle goes there.
fn circle() -> Vec<Leg> {
    let t = SECONDS / LEGS as f64;
    let at = |k: usize| on_the_circle(k as f64 * t).map(|v| v.map(|x| x as f32));
    (0..LEGS)
        .map(|k| {
            let ([p0, v0, a0], [pf, vf, af]) = (at(k), at(k + 1));
            Leg { p0, v0, a0, pf, vf, af, t: t as f32 }
        })
        .collect()
}

/// The flight, and its ticks once more as document 01's margin would have had them.
pub struct Curved {
    pub flight: Flight,
    pub before: Ticks,
}

pub fn fly(choice: &Choice, seed: u64) -> Result<Curved, Refusal> {
    let route = Route::new(&circle())?;
    let heading = |seconds| {
        let [yaw, turn, _] = turn(seconds);
        Heading { yaw, turn, own: true }
    };
    let (mut margins, reference) = (Vec::new(), |time| Ok(route.sample(time)?.into()));
    let look = |image: &Image, answer: &Answer| margins.push(margin_before(&choice.set, image, answer.psi));
    let flight = pass::fly_along(choice, seed, Rule::Shield, Some(route.clone()), Way { reference, heading }, look)?;
    let mut before = Ticks::default();
    let pilots = flight.rule.pilots(flight.enter, flight.exit, margins.iter().copied());
    for ((tick, margin), pilot) in flight.ticks.iter().zip(&margins).zip(pilots) {
        before.push(tick.input, Answer { margin: *margin, pilot, ..tick.answer });
    }
    Ok(Curved { flight, before })
}

/// Document 01's margin, of the squared length of the filtered rate: the last outputs of the image's three filters.
pub fn margin_before(set: &RecoverableSet, image: &Image, psi: f32) -> f32 {
    let output = |axis: usize| {
        let at = 4 * (68 + 9 * axis + 7);
        image.as_bytes().get(at..at + 4).and_then(|four| four.try_into().ok()).map_or(f32::NAN, f32::from_le_bytes)
    };
    let [x, y, z] = [output(0), output(1), output(2)];
    let squared = x * x + y * y + z * z;
    if !(psi.is_finite() && squared.is_finite() && set.lambda_j.is_finite() && set.lambda_j > 0.0) {
        return f32::NEG_INFINITY;
    }
    let (by_psi, by_rate) = (set.psi_max - psi, 2.0 * set.k_r * (2.0 - psi) / set.lambda_j - squared);
    let margin = if by_psi < by_rate { by_psi } else { by_rate };
    if margin.is_finite() {
        margin
    } else {
        f32::NEG_INFINITY
    }
}

/// How often control was taken from the planner.
pub fn taken(ticks: &Ticks) -> usize {
    ticks.windows(2).filter(|two| two[0].answer.pilot == Pilot::Planner && two[1].answer.pilot == Pilot::Fallback).count()
}

fn title() -> String {
    let fastest = turn(0.5 * SECONDS)[1].to_degrees();
    let Choice { enter, exit, .. } = pass::SHOWN;
    format!("A curved pass round a stage: {SECONDS} s, up to {fastest:.0} degrees a second commanded, enter {enter}, exit {exit}")
}

/// Every seed, by both margins.
pub fn table() -> Result<String, Refusal> {
    let mut text = format!("{}\n\n", title());
    let head = format!("{:>9} {:>9} {:>13}", "taken", "planner", "least margin");
    for (left, right) in
        [("THE TURN IS NO ERROR", "DOCUMENT 01'S MARGIN"), ("request Four, as flown", "worked out on the same flight"), (&*head, &*head)]
    {
        let line = format!("{:6}   {left:^33}   {right:^33}", "");
        let _ = writeln!(text, "{}", line.trim_end());
    }
    for seed in pass::SEEDS {
        let Curved { flight, before } = fly(&pass::SHOWN, seed)?;
        let cells = |ticks: &Ticks| {
            let least = ticks.iter().map(|tick| tick.answer.margin).fold(f32::INFINITY, f32::min);
            format!("{:9} {:7.1} % {least:13.4}", taken(ticks), 100.0 * ticks.planner_share())
        };
        let _ = writeln!(text, "seed {seed}   {}   {}", cells(&flight.ticks), cells(&before));
        if let Some(tick) = flight.strays() {
            let _ = writeln!(text, "note: from tick {tick} on the shield differs from its rule on the same margins");
        }
    }
    text.push_str("\ntaken: how often control was taken from the planner; planner: its part of the ticks.\n");
    Ok(text)
}

/// Writes the flight with the drawn seed into a folder, as CSV and as a log, and draws both margins of it; what came of it, a line each.
pub fn write(folder: &Path) -> io::Result<Vec<String>> {
    let Curved { flight, before } = fly(&pass::SHOWN, pass::DRAWN).map_err(io::Error::other)?;
    let stem = folder.join("curve");
    let said = output::kept(folder, "curve", &flight)?;
    let rows = [
        Row { suffix: "-flown", caption: "Commanded turning is no error", ticks: &flight.ticks, would: false, end: "" },
        Row { suffix: "-before", caption: "Document 01's margin on the same flight", ticks: &before, would: true, end: "" },
    ];
    let title = format!("{}, seed {}", title(), pass::DRAWN);
    let picture = Picture { title: &title, thresholds: Some((flight.enter, flight.exit)), rows: &rows };
    Ok(vec![said, picture.draw(&stem)?])
}
