//! A pass of three legs on a route, through the same loop: up to the stage, past its middle, and on to rest where the slow pass ends.

use crate::flight::{Flight, Rule};
use crate::pass::{self, Way, FROM, TO};
use crate::vector::V3;
use fosavalo::{Leg, Pilot, Refusal, Route};
use std::fmt::Write;

/// Where each leg ends, how fast it goes there, and how long it takes, s.
const ENDS: [(V3, V3, f64); 3] =
    [([0.8, -1.0, -4.4], [0.1, 0.4, 0.0], 8.0), ([0.8, 1.0, -4.4], [-0.1, 0.4, 0.0], 5.0), (TO, [0.0; 3], 7.0)];

/// The legs; where they meet, nothing accelerates.
pub fn legs() -> Vec<Leg> {
    let single = |v: V3| v.map(|x| x as f32);
    let (mut p0, mut v0) = (single(FROM), [0.0; 3]);
    let leg = |(pf, vf, t): (V3, V3, f64)| {
        let leg = Leg { p0, v0, a0: [0.0; 3], pf: single(pf), vf: single(vf), af: [0.0; 3], t: t as f32 };
        (p0, v0) = (leg.pf, leg.vf);
        leg
    };
    ENDS.into_iter().map(leg).collect()
}

/// The pass as drawn, on the route.
pub fn fly(seed: u64) -> Result<Flight, Refusal> {
    let route = Route::new(&legs())?;
    let way = Way { reference: |time| Ok(route.sample(time)?.into()), heading: pass::heading };
    pass::fly_along(&pass::SHOWN, seed, Rule::Shield, Some(route.clone()), way, |_, _| {})
}

pub fn table(flight: &Flight) -> String {
    by_leg(&format!("A pass of three legs on a route, seed {}, our shield: {} ticks", pass::DRAWN, flight.ticks.len()), flight)
}

/// What happened on each leg of a route.
pub fn by_leg(title: &str, flight: &Flight) -> String {
    let leg_at = |time: f32| flight.route.as_ref()?.sample(time).ok().map(|sample| sample.leg as usize);
    let leg_of = |tick: &crate::ticks::Tick| leg_at(tick.answer.time).unwrap_or(0);
    let on_route = flight.exchanges.first().map_or(flight.ticks.len(), |(tick, _)| *tick);
    let changes: Vec<usize> = flight.ticks.changes().into_iter().filter(|at| *at < on_route).collect();
    let mut text = format!("{title}\n\n");
    let _ = writeln!(text, "{:6}   {:>7} {:>7} {:>7} {:>9} {:>10}", "", "seconds", "ticks", "changes", "planner", "furthest");
    for (at, leg) in flight.route.iter().flat_map(Route::legs).enumerate() {
        let own = || flight.ticks.iter().take(on_route).filter(|tick| leg_of(tick) == at);
        let ticks = own().count();
        let planner = own().filter(|tick| tick.answer.pilot == Pilot::Planner).count();
        let changed = changes.iter().filter_map(|k| flight.ticks.get(*k)).filter(|tick| leg_of(tick) == at).count();
        let furthest = own().map(|tick| tick.input.tracking_error).fold(0.0, f32::max);
        let _ = writeln!(
            text,
            "{:8} {:>7} {ticks:7} {changed:7} {:7.1} % {furthest:8.2} m",
            format!("leg {}", at + 1),
            format!("{:?}", leg.t),
            100.0 * planner as f64 / ticks.max(1) as f64
        );
    }
    text.push_str("\nseconds: how long the leg is; furthest: the greatest distance from it.\n");
    if let Some(tick) = flight.strays() {
        let _ = writeln!(text, "note: from tick {tick} on the shield differs from its rule on the same margins");
    }
    text
}
