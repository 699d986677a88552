//! A loop flown three times: the pattern of `scenarios/loop.txt`, expanded by the core and flown through the same loop as the slow pass. The picture shows
//! it from above, each round by itself.

use crate::above::{self, Panel};
use crate::flight::{Flight, Rule};
use crate::output;
use crate::pass::{self, Choice, DT};
use crate::pattern::Expanded;
use crate::scenario::{self, Scenario};
use crate::simulated::{Flown, Simulated};
use crate::vector::V3;
use fosavalo::{Pilot, RecoverableSet, Route, TickInput};
use std::fmt::Write;
use std::io;
use std::path::Path;

const TEXT: &[u8] = include_bytes!("../scenarios/loop.txt");
/// The set is bounded by the attitude, 20 degrees at enter and 14 at exit: a round takes eight seconds, and so tight a set as the slow pass's would have the
/// fallback fly half of it.
const CHOICE: Choice = Choice {
    name: "a loop flown three times",
    set: RecoverableSet { k_r: 0.6, lambda_j: 0.04, psi_max: 0.12 },
    enter: 0.06,
    exit: 0.09,
    ..pass::SHOWN
};
/// How long it is at rest after the last leg, s.
const REST: f64 = 1.0;
/// So many ticks are a point of the picture.
const PER_POINT: usize = 20;

pub struct Thrice {
    pub flight: Flight,
    /// Where the aircraft was at each tick.
    pub places: Vec<V3>,
    pub route: Route,
    /// The round of each leg, counted from 1; 0 before the first, and after the last one more than its.
    pub rounds: Vec<usize>,
}

/// Which round each leg is of: where a line comes again, another round begins, and a line that comes once is of none.
fn rounds(expanded: &Expanded) -> Vec<usize> {
    let lines: Vec<usize> = expanded.legs.iter().map(|placed| placed.line).collect();
    let times = |legs: &[usize], line: usize| legs.iter().filter(|other| **other == line).count();
    let mut last = 0;
    lines
        .iter()
        .enumerate()
        .map(|(at, line)| match times(&lines, *line) {
            1 if last == 0 => 0,
            1 => last + 1,
            _ => {
                last = times(&lines[..=at], *line);
                last
            }
        })
        .collect()
}

/// The camera looks north, and the planner with it: it does what is asked, as on the curved pass.
pub fn fly(seed: u64) -> Result<Thrice, String> {
    let expanded = scenario::pattern(TEXT).map_err(|mistake| format!("loop.txt: {mistake}"))?;
    let ticks = ((expanded.seconds() + REST) / f64::from(DT)).round() as usize;
    let scenario = Scenario {
        set_up: pass::set_up(&CHOICE),
        route: Some(expanded.route.clone()),
        inputs: vec![TickInput { dt: DT, ..TickInput::default() }; ticks],
        events: Vec::new(),
        desk: None,
        aircraft: Some(Simulated { seed, gyro_noise: CHOICE.gyro_noise, roams: false }),
    };
    let Flown { flight, places } = scenario.fly(Rule::Shield).map_err(|refusal| refusal.to_string())?;
    let places = places.into_iter().map(|place| place.is).collect();
    Ok(Thrice { flight, places, rounds: rounds(&expanded), route: expanded.route })
}

/// What happened in a part of the flight.
pub struct Part {
    pub ticks: usize,
    pub changes: usize,
    pub planner: usize,
    pub furthest: f32,
}

impl Thrice {
    fn last(&self) -> usize {
        self.rounds.last().copied().unwrap_or(0)
    }

    /// The round that each tick is of.
    fn round_of(&self, at: usize) -> usize {
        let time = self.flight.ticks.get(at).map_or(0.0, |tick| tick.answer.time);
        let leg = self.route.sample(time).map_or(0, |sample| sample.leg as usize);
        self.rounds.get(leg).copied().unwrap_or(0)
    }

    pub fn part(&self, round: usize) -> Part {
        let own: Vec<usize> = (0..self.flight.ticks.len()).filter(|at| self.round_of(*at) == round).collect();
        let ticks = || own.iter().filter_map(|at| self.flight.ticks.get(*at));
        Part {
            ticks: own.len(),
            changes: self.flight.ticks.changes().iter().filter(|at| own.binary_search(at).is_ok()).count(),
            planner: ticks().filter(|tick| tick.answer.pilot == Pilot::Planner).count(),
            furthest: ticks().map(|tick| tick.input.tracking_error).fold(0.0, f32::max),
        }
    }

    fn name(&self, round: usize) -> String {
        match round {
            0 => "out".to_string(),
            round if round == self.last() => "back".to_string(),
            round => format!("round {round}"),
        }
    }
}

fn title(thrice: &Thrice) -> String {
    let ticks = thrice.flight.ticks.len();
    format!("A loop flown three times, by the pattern of loop.txt, seed {}, our shield: {ticks} ticks", pass::DRAWN)
}

/// What happened in each round.
pub fn table() -> Result<String, String> {
    let thrice = fly(pass::DRAWN)?;
    let mut text = format!("{}\n\n", title(&thrice));
    let _ = writeln!(text, "{:7}   {:>4} {:>7} {:>7} {:>9} {:>10}", "", "legs", "ticks", "changes", "planner", "furthest");
    for round in 0..=thrice.last() {
        let Part { ticks, changes, planner, furthest } = thrice.part(round);
        let legs = thrice.rounds.iter().filter(|own| **own == round).count();
        let share = 100.0 * planner as f64 / ticks.max(1) as f64;
        let _ = writeln!(text, "{:7}   {legs:4} {ticks:7} {changes:7} {share:7.1} % {furthest:8.2} m", thrice.name(round));
    }
    text.push_str("\nfurthest: the greatest distance from the leg that is flown; back: with the second at rest.\n");
    if let Some(tick) = thrice.flight.strays() {
        let _ = writeln!(text, "note: from tick {tick} on the shield differs from its rule on the same margins");
    }
    Ok(text)
}

/// A panel for each round, the way out with the first and the way back with the last.
fn panels(thrice: &Thrice) -> Vec<Panel> {
    let seconds: f32 = thrice.route.legs().map(|leg| leg.t).sum();
    let samples = (0..=(20.0 * seconds) as usize).map_while(|k| thrice.route.sample(k as f32 / 20.0).ok());
    let wanted: Vec<V3> = samples.map(|sample| sample.position.map(f64::from)).collect();
    let count = thrice.last().saturating_sub(1).max(1);
    let mut panels: Vec<Panel> = (1..=count)
        .map(|round| {
            let caption = match round {
                1 => "Out, and once round".to_string(),
                round if round == count => format!("Round {round}, and back"),
                round => format!("Round {round}"),
            };
            Panel { caption, wanted: wanted.clone(), flown: Vec::new() }
        })
        .collect();
    for (at, (place, tick)) in thrice.places.iter().zip(thrice.flight.ticks.iter()).enumerate().step_by(PER_POINT) {
        if let Some(panel) = panels.get_mut(thrice.round_of(at).clamp(1, count) - 1) {
            panel.flown.push((*place, tick.answer.pilot));
        }
    }
    panels
}

/// Writes the flight into a folder, as CSV and as a log, and draws it from above; what came of it, a line each.
pub fn write(folder: &Path) -> io::Result<Vec<String>> {
    let thrice = fly(pass::DRAWN).map_err(io::Error::other)?;
    let said = output::kept(folder, "thrice", &thrice.flight)?;
    Ok(vec![said, above::draw(&folder.join("thrice"), &title(&thrice), &panels(&thrice))?])
}
