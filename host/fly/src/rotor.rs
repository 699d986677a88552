//! A pass in which one rotor stops, half way along the slow pass. When it is noticed the core is set up anew, to come down where it is; the aircraft
//! spins, since nothing turns against its two side rotors. Flown with the profile for a lost rotor, and on the same aircraft with that for all rotors.

use crate::aircraft::Rotors;
use crate::flight::{Flight, Rule};
use crate::output;
use crate::pass::{self, Air, Choice, Heading, DT, TICKS};
use crate::picture::{Picture, Row};
use crate::planner::Planner;
use crate::random::Random;
use crate::vector::{Quat, V3};
use fosavalo::{Profile, RecoverableSet, Refusal, Segment, SetUp};
use std::fmt::Write;
use std::io;
use std::path::Path;

/// The rotor stops at this tick, and so many later it is noticed.
const STOPS: u64 = TICKS / 2;
const NOTICED: u64 = 30;
/// How long it may take to come down, s, and how fast it is to, m/s.
const LONGEST: f64 = 12.0;
const DESCENT: f64 = 0.6;

/// What it comes down with: a set that is bounded by the tilt, 33 degrees at enter and 23 at exit.
pub const SHOWN: Choice = Choice {
    name: "with a planner that brings it level",
    set: RecoverableSet { k_r: 0.6, lambda_j: 0.04, psi_max: 0.22 },
    enter: 0.06,
    exit: 0.14,
    ..pass::SHOWN
};
/// And with thresholds that no margin reaches.
pub const ALONE: Choice = Choice { name: "the fallback alone", enter: 5.0, exit: 9.0, ..SHOWN };

pub const PROFILES: [Profile; 2] = [Profile::LostRotor, Profile::Whole];

/// The flight since it was noticed, and what the aircraft did, which the core is not told.
pub struct Down {
    pub flight: Flight,
    /// One minus the cosine of the tilt: the greatest, and the last.
    pub tilt: f64,
    pub last_tilt: f64,
    /// The fastest descent, m/s, and the fastest spin, rad/s.
    pub descent: f64,
    pub spin: f64,
    /// Whether it is on the ground.
    pub landed: bool,
}

/// Only printed: no flight hangs on an arc cosine.
fn degrees(tilt: f64) -> f64 {
    (1.0 - tilt).acos().to_degrees()
}

/// The slow pass until the rotor stops, and then down with this profile.
pub fn fly(choice: &Choice, profile: Profile, seed: u64) -> Result<Down, Refusal> {
    let mut whims = Random::new(2 * seed);
    let mut air = Air::at(pass::FROM, pass::heading(0.0).yaw, pass::SHOWN.gyro_noise, seed);
    let (mut flight, mut image) = Flight::begin(&pass::set_up(&pass::SHOWN), Rule::Shield, None)?;
    let mut planner = Planner::new(&mut whims);
    for k in 0..STOPS + NOTICED {
        if k == STOPS {
            air.aircraft.rotors = Rotors::Stopped;
        }
        let heading = pass::heading(k as f64 * f64::from(DT));
        let rate = |attitude: Quat, wanted: V3| planner.rate(attitude, wanted, heading.yaw, f64::from(DT), &mut whims);
        air.tick(&mut flight, &mut image, &pass::reference(air.last.time)?, &heading, rate)?;
    }

    air.aircraft.rotors = Rotors::Three;
    let (from, heading) = (air.aircraft.position, Heading { turn: 0.0, ..pass::heading(STOPS as f64 * f64::from(DT)) });
    let straight = |seconds: f64| [from[0], from[1], from[2] + DESCENT * seconds];
    let (along, single) = ([0.0, 0.0, DESCENT as f32], |v: V3| v.map(|x| x as f32));
    let segment = Segment {
        p0: single(from),
        v0: along,
        pf: single(straight(LONGEST)),
        vf: along,
        t: LONGEST as f32,
        ..SetUp::falcon_quad().segment
    };
    let (flight, mut image) = Flight::begin(&SetUp { segment, profile, ..pass::set_up(choice) }, Rule::Shield, None)?;
    let mut down = Down { flight, tilt: 0.0, last_tilt: 0.0, descent: 0.0, spin: 0.0, landed: false };
    let mut time = 0.0;
    for _ in 0..(LONGEST / f64::from(DT)) as u64 {
        // level, and where there is a heading to hold, that
        let rate = |attitude: Quat, _: V3| match profile {
            Profile::LostRotor => Planner::rate_level(attitude),
            Profile::Whole => Planner::rate_of(attitude, [0.0; 3], heading.yaw, heading.turn),
        };
        time = air.tick(&mut down.flight, &mut image, &segment.sample(time)?.into(), &heading, rate)?.time;
        down.last_tilt = air.aircraft.tilt();
        down.tilt = down.tilt.max(down.last_tilt);
        down.descent = down.descent.max(air.aircraft.velocity[2]);
        down.spin = down.spin.max(air.aircraft.spin().abs());
        down.landed = air.aircraft.position[2] >= 0.0;
        if down.landed {
            break;
        }
    }
    Ok(down)
}

fn title() -> String {
    let Choice { enter, exit, .. } = SHOWN;
    format!("A rotor stops half way along the slow pass, and the aircraft is brought down: enter {enter}, exit {exit}")
}

/// Every seed, with both profiles.
pub fn table() -> Result<String, Refusal> {
    let mut text = format!("{}\n\n", title());
    let head = format!("{:>9} {:>10} {:>10} {:>11} {:>9}", "tilt", "at ground", "descent", "spin", "planner");
    for (left, right) in [("A ROTOR LOST", "ALL ROTORS"), ("profile 1", "profile 0, on the same aircraft"), (&*head, &*head)] {
        let line = format!("{:6}   {left:^53}   {right:^53}", "");
        let _ = writeln!(text, "{}", line.trim_end());
    }
    for (choice, seed) in [SHOWN, ALONE].iter().flat_map(|choice| pass::SEEDS.map(|seed| (choice, seed))) {
        if seed == pass::SEEDS[0] {
            let _ = writeln!(text, "{}", choice.name);
        }
        let [lost, whole] = [fly(choice, PROFILES[0], seed)?, fly(choice, PROFILES[1], seed)?];
        let cells = |down: &Down| {
            let planner = 100.0 * down.flight.ticks.planner_share();
            let [tilt, last] = [down.tilt, down.last_tilt].map(degrees);
            format!("{tilt:5.1} deg {last:6.1} deg {:6.2} m/s {:5.1} rad/s {planner:7.1} %", down.descent, down.spin)
        };
        let _ = writeln!(text, "seed {seed}   {}   {}", cells(&lost), cells(&whole));
        for down in [lost, whole] {
            if let Some(tick) = down.flight.strays() {
                let _ = writeln!(text, "note: from tick {tick} on the shield differs from its rule on the same margins");
            }
        }
    }
    text.push_str(
        "\ntilt, descent, spin: the greatest since it was noticed; planner: its part of the ticks since then. All of it is simulated.\n",
    );
    Ok(text)
}

/// Writes both flights with the drawn seed into a folder, as CSV and as logs, and draws their margins; what came of it, a line each.
pub fn write(folder: &Path) -> io::Result<Vec<String>> {
    let fly = |profile| fly(&SHOWN, profile, pass::DRAWN).map_err(io::Error::other);
    let flights = [("-lost", "A rotor lost: profile 1", fly(PROFILES[0])?), ("-whole", "The same aircraft, profile 0", fly(PROFILES[1])?)];
    let stem = folder.join("rotor");
    let mut said = Vec::new();
    for (suffix, _, Down { flight, .. }) in &flights {
        said.push(output::kept(folder, &format!("rotor{suffix}"), flight)?);
    }
    let rows = flights.each_ref().map(|(suffix, caption, Down { flight, landed, .. })| Row {
        suffix,
        caption,
        ticks: &flight.ticks,
        would: false,
        end: if *landed { "on the ground" } else { "" },
    });
    let title = format!("{}, seed {}", title(), pass::DRAWN);
    let picture = Picture { title: &title, thresholds: Some((SHOWN.enter, SHOWN.exit)), rows: &rows };
    said.push(picture.draw(&stem)?);
    Ok(said)
}
