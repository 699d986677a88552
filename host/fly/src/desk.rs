//! The slow pass flown from an operator's desk: a script moves the sticks, past their limits, there and back, and for three seconds the sticks' cable is out. The
//! heading that is flown is the desk's, and the log keeps it.

use crate::curve::taken;
use crate::flight::{Flight, Rule};
use crate::output;
use crate::pass::{self, Air, Choice, Heading, DT, SECONDS, TICKS};
use crate::picture::{drawn, quoted};
use crate::planner::Planner;
use crate::vector::{Quat, V3};
use fosavalo_desk::{Desk, DeskSetUp, Refusal, Stick, Sticks};
use std::fmt::Write;
use std::io;
use std::path::Path;

/// The heading is to stay within half a radian and seven degrees a second; the turn goes with it.
pub const SET_UP: DeskSetUp = DeskSetUp {
    heading: Stick { omega_n: 2.0, max_mag: 0.5, max_rate: 0.12 },
    turn: Stick { omega_n: 8.0, max_mag: 0.12, max_rate: 0.5 },
    zoom: Stick { omega_n: 1.0, max_mag: 1.0, max_rate: 0.4 },
};

/// When the button is pressed: after the cable was out, with the heading back at 0.
const BUTTON: f64 = 17.0;

/// Where the script has the sticks at a time: what it asks of the heading is beyond the limit at first. A cable that is out gives no number.
pub fn sticks(seconds: f64) -> Sticks {
    let turn = match seconds {
        s if (2.0..6.0).contains(&s) => 0.12,
        s if (8.0..13.6).contains(&s) => -0.12,
        s if (14.0..17.0).contains(&s) => f32::NAN,
        _ => 0.0,
    };
    match seconds {
        s if s < 2.0 => Sticks { heading: 0.0, turn, zoom: 0.0 },
        s if s < 8.0 => Sticks { heading: 0.8, turn, zoom: 1.5 },
        s if s < 14.0 => Sticks { heading: -0.2, turn, zoom: -0.5 },
        s if s < 17.0 => Sticks { heading: f32::NAN, turn, zoom: f32::NAN },
        _ => Sticks { heading: 0.1, turn, zoom: 0.0 },
    }
}

/// A tick's sticks, and the values and rates that the desk then has.
pub struct Moved {
    pub sticks: Sticks,
    pub values: [f32; 3],
    pub rates: [f32; 3],
}

pub struct ByDesk {
    pub flight: Flight,
    pub moved: Vec<Moved>,
}

/// Value and rate of each stick, off the desk's words.
fn read(desk: &Desk) -> [[f32; 3]; 2] {
    let word = |at: usize| {
        let four = desk.as_bytes().chunks_exact(4).nth(at).and_then(|four| four.try_into().ok());
        four.map_or(f32::NAN, f32::from_le_bytes)
    };
    [3, 4].map(|field| [0, 1, 2].map(|stick| word(5 * stick + field)))
}

pub fn fly(choice: &Choice, seed: u64) -> Result<ByDesk, Refusal> {
    let (mut flight, mut image) = Flight::begin(&pass::set_up(choice), Rule::Shield, None)?;
    let mut desk = Desk::set_up(&SET_UP)?;
    let mut air = Air::at(pass::FROM, 0.0, choice.gyro_noise, seed);
    let mut moved = Vec::new();
    for k in 0..TICKS {
        let seconds = k as f64 * f64::from(DT);
        if k == (BUTTON / f64::from(DT)) as u64 {
            desk.centre()?;
        }
        let sticks = sticks(seconds);
        // what the planner knows of the heading is the desk's last; the input's own is written over
        let heading = Heading { yaw: f64::from(desk.heading()), turn: f64::from(desk.turn()), own: true };
        let rate = |attitude: Quat, wanted: V3| Planner::rate_of(attitude, wanted, heading.yaw, heading.turn);
        air.tick_by(&pass::reference(air.last.time)?, &heading, rate, |input| flight.desk_tick(&mut image, &mut desk, &sticks, input))?;
        let [values, rates] = read(&desk);
        moved.push(Moved { sticks, values, rates });
    }
    Ok(ByDesk { flight, moved })
}

fn title() -> String {
    let Stick { max_mag, max_rate, .. } = SET_UP.heading;
    format!("The slow pass from a desk: {SECONDS} s, the heading within {max_mag} rad and {max_rate} rad/s, whatever the stick does")
}

/// Every seed: how far the heading, its rate and the turn went, and who flew.
pub fn table() -> Result<String, Refusal> {
    let mut text = format!("{}\n\n", title());
    let head = format!("{:6}   {:>18}   {:>9}   {:>9}   {:>8}   {:>9}", "", "heading, rad", "its rate", "turn", "taken", "planner");
    let _ = writeln!(text, "{}", head.trim_end());
    for seed in pass::SEEDS {
        let ByDesk { flight, moved } = fly(&pass::SHOWN, seed)?;
        let most = |of: &dyn Fn(&Moved) -> f32| moved.iter().map(|moved| of(moved).abs()).fold(0.0, f32::max);
        let yaws = || flight.ticks.iter().map(|tick| tick.input.yaw);
        let (least, greatest) = (yaws().fold(f32::INFINITY, f32::min), yaws().fold(f32::NEG_INFINITY, f32::max));
        let heading = format!("{least:.4} to {greatest:.4}");
        let (rate, turn) = (most(&|moved| moved.rates[0]), most(&|moved| moved.values[1]));
        let (taken, planner) = (taken(&flight.ticks), 100.0 * flight.ticks.planner_share());
        let _ = writeln!(text, "seed {seed}   {heading:>18}   {rate:9.4}   {turn:9.4}   {taken:8}   {planner:7.1} %");
        if let Some(tick) = flight.strays() {
            let _ = writeln!(text, "note: from tick {tick} on the shield differs from its rule on the same margins");
        }
    }
    text.push_str("\nheading: the least and the greatest that was flown; its rate and turn: the greatest in size; taken: how often control was taken from the planner.\n");
    Ok(text)
}

/// From when to when a stick gives no number.
fn without_a_number(ByDesk { flight, moved }: &ByDesk) -> Vec<(f64, f64)> {
    let none = |moved: &Moved| [moved.sticks.heading, moved.sticks.turn, moved.sticks.zoom].iter().any(|x| !x.is_finite());
    let ticks: Vec<_> = flight.ticks.iter().zip(moved.iter().map(none)).collect();
    let stretches = ticks.chunk_by(|a, b| a.1 == b.1).filter_map(|some| some.first().zip(some.last()));
    stretches.filter(|(first, _)| first.1).map(|(first, last)| (first.0.seconds, last.0.until)).collect()
}

/// Writes the flight with the drawn seed into a folder, as CSV and as a log, and draws sticks and values of it; what came of it, a line each.
pub fn write(folder: &Path) -> io::Result<Vec<String>> {
    let by_desk = fly(&pass::SHOWN, pass::DRAWN).map_err(io::Error::other)?;
    let outs: Vec<String> = without_a_number(&by_desk).into_iter().map(|(from, until)| format!("{from:.3}, {until:.3}")).collect();
    let ByDesk { flight, moved } = by_desk;
    let stem = folder.join("desk");
    let said = output::kept(folder, "desk", &flight)?;
    let file = folder.join("desk.points");
    let mut points = String::new();
    for (tick, moved) in flight.ticks.iter().zip(&moved).step_by(20) {
        let Sticks { heading, turn, zoom } = moved.sticks;
        let [a, b, c] = moved.values;
        let _ = writeln!(points, "{:.3} {heading} {a} {turn} {b} {zoom} {c}", tick.seconds);
    }
    std::fs::write(&file, points)?;
    let limits = [SET_UP.heading, SET_UP.turn, SET_UP.zoom].map(|stick| stick.max_mag.to_string()).join(", ");
    let settings = format!(
        "stem = {}\ntitle = {}\npoints = {}\nuntil = {SECONDS}\narray limits[3] = [{limits}]\narray outs[{}] = [{}]\nbutton = {BUTTON}\n",
        quoted(&stem.to_string_lossy()),
        quoted(&format!("{}, seed {}", title(), pass::DRAWN)),
        quoted(&file.to_string_lossy()),
        2 * outs.len(),
        outs.join(", ")
    );
    Ok(vec![said, drawn(&stem, &settings, include_str!("../desk.gp"))])
}
