//! The slow pass with its segment exchanged in flight: the camera is wanted elsewhere, and then where it was to end. Each new segment starts where the
//! last one is at that time; who flies is carried across, and the peaks of the jerk are read off the image.

use crate::flight::{Flight, Rule};
use crate::pass::{self, Air, DT, FROM, TICKS, TO};
use crate::planner::Planner;
use crate::random::Random;
use crate::vector::{Quat, V3};
use fosavalo::{Leg, Pilot, Refusal};
use std::fmt::Write;

/// Before which tick, counted from 0; where the new segment ends, at rest; and how long it takes, s.
const EXCHANGES: [(u64, V3, f32); 2] = [(7_000, [0.8, 0.5, -4.4], 6.0), (13_000, TO, 7.0)];

const AT_REST: Leg = Leg { p0: [0.0; 3], v0: [0.0; 3], a0: [0.0; 3], pf: [0.0; 3], vf: [0.0; 3], af: [0.0; 3], t: 1.0 };

/// The ticks on one segment.
pub struct Stretch {
    /// The first of them, counted from 0.
    pub from: usize,
    /// Who had control before it.
    pub pilot: Pilot,
    pub peaks: [f32; 3],
}

pub struct Exchanged {
    pub flight: Flight,
    pub stretches: Vec<Stretch>,
}

pub fn fly(seed: u64) -> Result<Exchanged, Refusal> {
    let single = |v: V3| v.map(|x| x as f32);
    let (mut whims, set_up) = (Random::new(2 * seed), pass::set_up(&pass::SHOWN));
    let mut air = Air::at(FROM, pass::heading(0.0).yaw, pass::SHOWN.gyro_noise, seed);
    let (mut flight, mut image) = Flight::begin(&set_up, Rule::Shield, None)?;
    let mut planner = Planner::new(&mut whims);
    let mut stretches = vec![Stretch { from: 0, pilot: image.pilot(), peaks: image.peak_abs_jerk() }];
    for k in 0..TICKS {
        if let Some(&(_, end, t)) = EXCHANGES.iter().find(|(at, ..)| *at == k) {
            let leg = flight.from_here(image.time(), Leg { pf: single(end), t, ..AT_REST })?;
            let pilot = image.pilot();
            flight.exchange(&mut image, &leg)?;
            stretches.push(Stretch { from: k as usize, pilot, peaks: image.peak_abs_jerk() });
        }
        let heading = pass::heading(k as f64 * f64::from(DT));
        let rate = |attitude: Quat, wanted: V3| planner.rate(attitude, wanted, heading.yaw, f64::from(DT), &mut whims);
        let reference = flight.way(image.time())?.into();
        air.tick(&mut flight, &mut image, &reference, &heading, rate)?;
    }
    Ok(Exchanged { flight, stretches })
}

/// What happened on each segment.
pub fn table(Exchanged { flight, stretches }: &Exchanged) -> String {
    let changes = flight.ticks.changes();
    let mut text = format!(
        "The slow pass with its segment exchanged twice in flight, seed {}, our shield: {} ticks\n\n",
        pass::DRAWN,
        flight.ticks.len()
    );
    let head = ["from tick", "before", "ticks", "changes", "planner"];
    let _ = writeln!(
        text,
        "{:9}   {:>9} {:>8} {:>6} {:>7} {:>9}   {:>26}",
        "", head[0], head[1], head[2], head[3], head[4], "peaks of the jerk, m/s³"
    );
    for (at, stretch) in stretches.iter().enumerate() {
        let to = stretches.get(at + 1).map_or(flight.ticks.len(), |next| next.from);
        let own = flight.ticks.get(stretch.from..to).unwrap_or_default();
        let planner = own.iter().filter(|tick| tick.answer.pilot == Pilot::Planner).count();
        let changed = changes.iter().filter(|k| (stretch.from..to).contains(*k)).count();
        let before = if stretch.pilot == Pilot::Planner { "planner" } else { "fallback" };
        let [x, y, z] = stretch.peaks;
        let _ = writeln!(
            text,
            "segment {}   {:9} {before:>8} {:6} {changed:7} {:7.1} %   {x:8.4} {y:8.4} {z:8.4}",
            at + 1,
            stretch.from + 1,
            own.len(),
            100.0 * planner as f64 / own.len().max(1) as f64
        );
    }
    text.push_str("\nbefore: who had control when the segment was set; peaks: north, east, down, as the image stores them.\n");
    if let Some(tick) = flight.strays() {
        let _ = writeln!(text, "note: from tick {tick} on the shield differs from its rule on the same margins");
    }
    text
}
