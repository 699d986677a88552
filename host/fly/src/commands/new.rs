//! `new [FILE]`: a scenario with every field, each with what it is.

use super::{show, Subcommand};
use crate::arguments::Arguments;
use crate::output::{note, of_file};
use crate::pattern::exactly;
use crate::scenario::{input_words, set_up_words, FLOWN};
use crate::simulated::Simulated;
use fosavalo::{SetUp, TickInput};
use std::io::Write;

pub const SUBCOMMAND: Subcommand = Subcommand {
    name: "new",
    takes: "[FILE]",
    brief: "a scenario with every field and a comment on each, to begin with",
    about: || {
        "Writes a scenario into FILE, which may not be there yet, or prints it: every field of the set-up and of the input with what it
is, the numbers that hold where it is left out, and a few ticks. `fosavalo fly FILE` flies it."
            .to_string()
    },
    options: &[],
    more: String::new,
    run,
};

/// What each field is.
const FIELDS: [(&str, &str); 30] = [
    ("k_r", "attitude gains of the fallback, by axis"),
    ("k_omega", "its rate gains, by axis"),
    ("j", "inertia, kg m2, by axis"),
    ("set", "the recoverable set that the margin is measured against: k_r, lambda_j, psi_max"),
    ("enter", "below this margin the fallback takes over; above 0"),
    ("exit", "above this margin the planner gets control back; above enter"),
    ("err_lo", "up to this distance from the trajectory, m, its clock keeps its full pace"),
    ("err_hi", "from this one on it keeps the least"),
    ("g_min", "the least pace, 0 to 1"),
    ("p0", "the segment's start, m: north, east, down"),
    ("v0", "the velocity there, m/s"),
    ("a0", "the acceleration there, m/s2"),
    ("pf", "the segment's end"),
    ("vf", "the velocity there"),
    ("af", "the acceleration there"),
    ("t", "how long it takes, s"),
    ("adrc_roll", "the rate controller about x: omega_o and omega_c, rad/s; b0, rad/s2 for a unit of torque; the motors' lag tau, s"),
    ("adrc_pitch", "the same about y"),
    ("adrc_yaw", "the same about z"),
    ("fc", "the gyro filter's cut-off, Hz: above 0 and below half of fs"),
    ("fs", "the sample rate that it is made for, Hz"),
    ("gyro", "the measured rate, rad/s"),
    ("attitude", "the estimated attitude, a quaternion: w x y z"),
    ("tracking_error", "the distance from the trajectory, m"),
    ("yaw", "the wanted heading, rad"),
    ("yaw_rate", "how fast it is to turn, rad/s"),
    ("dt", "since the last tick, s"),
    ("planner", "the rate that the planner wants, rad/s"),
    ("delivered", "which part of the last torque the motors gave, 0 to 1, by axis"),
    ("sticks", "a desk's: heading, rad; turn, rad/s; the zoom's rate"),
];

/// A field on a line, with what it is.
fn line((name, numbers): (&str, Vec<f32>)) -> String {
    let mut what = FIELDS.iter().find(|(field, _)| *field == name).map_or("", |(_, what)| what).to_string();
    if FLOWN.contains(&name) {
        what += "; not with `aircraft simulated`";
    }
    commented(&format!("{name} {}", numbers.into_iter().map(exactly).collect::<Vec<_>>().join(" ")), &what)
}

fn commented(field: &str, what: &str) -> String {
    format!("{field:32} # {what}\n")
}

/// The scenario.
pub fn scenario() -> String {
    let mut text =
        "# A scenario: a field and its numbers on a line; what follows a # is a comment. A field that is left out has the numbers
# that stand here. docs/SCENARIOS.md has more.

# the set-up
"
        .to_string();
    text.extend(set_up_words(&SetUp::falcon_quad()).map(line));
    text += &commented("profile whole", "or lost-rotor");
    text += &commented("aircraft typed", "open loop: no torque moves what is typed; or simulated: an aircraft flies by the torque");
    let Simulated { seed, gyro_noise, .. } = Simulated::default();
    text += &commented(&format!("# seed {seed}"), "of a simulated aircraft: its noise and its planner's whims");
    text += &commented(&format!("# noise {gyro_noise}"), "of its gyro, the deviation in rad/s");
    text += &commented("# camera steady", "or roams: its planner looks about, as in the slow pass");
    text += &commented(
        "# desk 2 0.5 0.1 8 0.1 0.5 1 1 1",
        "the heading comes from sticks: heading, turn and zoom, each omega_n, the most, the fastest",
    );
    text += &commented(
        "# leg p0 v0 a0 pf vf af t",
        "nineteen numbers: a leg of a route in place of the segment; each starts where the last ends",
    );
    text += &commented("# repeat 3 { leg .. leg .. }", "legs that are flown several times, 1 to 9");
    text += "\n# the input, which holds until it is given again\n";
    text.extend(input_words(&TickInput::default()).map(line));
    text += &format!("# {}", line(("sticks", vec![0.0; 3])));
    text += "\n";
    text += &commented("tick 200", "so many ticks");
    text += &commented("tick 400 gyro 1.8 0 0", "ticks in which these numbers go evenly from where they are to here");
    text += &commented(
        "# exchange p0 v0 a0 pf vf af t",
        "from here on this segment is flown; or `exchange here` pf vf af t, from where the way is",
    );
    text += &commented("# centre", "the desk's button");
    text
}

fn run(arguments: &Arguments) -> Result<u8, String> {
    let Some(file) = arguments.at_most_one("file")? else { return show(&scenario()) };
    let written = std::fs::File::create_new(file).and_then(|mut to| to.write_all(scenario().as_bytes()));
    written.map_err(|error| of_file(file, error))?;
    note(&format!("a scenario: {0} (`fosavalo fly {0}` flies it)", file.display()));
    Ok(0)
}
