//! `fly`: the slow pass above a stage, a pass of three legs, one whose segment is exchanged, a loop flown three times, a curved pass, one in which a rotor
//! stops, and one flown from a desk. `fly SCENARIO`: a flight from a file. Both print a table and write what was flown.

use super::{show, Subcommand};
use crate::arguments::{Arguments, CHOICES, OUT};
use crate::flight::RULES;
use crate::output::{self, of_file};
use crate::scenario::{self, Scenario};
use crate::simulated::{self, Flown};
use crate::table::{choices, passes, table, Pair};
use crate::{above, curve, desk, exchange, legs, loop_thrice, pass, rotor};
use fosavalo::{LEG_BYTES, TICK_BYTES};
use fosavalo_desk::DESK_SETUP_BYTES;
use std::io;
use std::path::{Path, PathBuf};

pub const SUBCOMMAND: Subcommand = Subcommand {
    name: "fly",
    takes: "[SCENARIO] [--out FOLDER]\n--choices",
    brief: "a slow pass and others in a closed loop, or a scenario: a table, logs, a picture",
    about: || {
        "Without a scenario: the slow pass above a stage in a closed loop, five seeds, our shield and the earlier rule side by side;
then a pass of three legs on a route, one whose segment is exchanged in flight, a loop flown three times by a pattern, a
curved pass by the margin of today and by document 01's, one in which a rotor stops, and one flown from an operator's
desk. With one: the flight of that file."
            .to_string()
    },
    options: &[
        (
            &[OUT],
            "where the files go, `flights` if it is not given: NAME-shield.csv and NAME-earlier.csv with every tick,
NAME-shield.log and NAME-earlier.log, and where gnuplot is there NAME.svg and NAME.png, drawn from
NAME-shield.points and NAME-earlier.points, and of a simulated aircraft NAME-above.svg and NAME-above.png;
NAME is `pass` or the scenario's",
        ),
        (&[CHOICES], "the pass with other choices of set, filter and noise, and how often control changed hands; no files"),
    ],
    more: fields,
    run,
};

fn fields() -> String {
    let [set_up, input] = scenario::fields().map(|fields| {
        let named: Vec<String> = fields.iter().map(|(name, count)| format!("{name} {count}")).collect();
        named.chunks(9).map(|line| format!("\n  {}", line.join(", "))).collect::<String>()
    });
    format!(
        "A scenario is plain text, a field and its numbers on a line, # before a comment (docs/SCENARIOS.md; host/fly/scenarios has
examples). Fields, and how many numbers each takes; of the set-up, before the first tick:{set_up}
of the input, which hold until they are given again:{input}
and before the first tick
  profile NAME   `whole`, as it is if this is not given, or `lost-rotor`
  leg NUMBERS    a leg of a route in place of the segment, {leg} numbers: p0 v0 a0 pf vf af t
  repeat N {{ .. }}  legs and repeats of them that are flown N times, 1 to 9; four deep at most
  aircraft NAME  `typed`, as it is if this is not given: open loop, and no torque moves what is typed; or `simulated`: gyro,
                 attitude, tracking_error, delivered and planner come from the slow pass's aircraft, which flies by the torque
  seed N, noise NUMBER, camera NAME
                 its seed, the deviation of its gyro, and whether its planner looks about: `steady` or `roams`
  desk NUMBERS   yaw and yaw_rate come from three sticks; of each omega_n, the most, the fastest: {desk} numbers
and
  tick N         N ticks; `tick N FIELD NUMBERS ..` leads these fields of the input evenly to these numbers
  row NUMBERS    one tick, all {row} numbers of the input
  sticks NUMBERS a desk's: heading, turn and the zoom's rate, 3 numbers; an input, which holds until it is given again
  exchange NUMBERS, exchange here NUMBERS
                 from here on another segment is flown: {leg} numbers as a leg has; or pf vf af t, from where the way is
  centre         presses the desk's button
  planner typed NUMBERS, planner simulated
                 a simulated aircraft's planner says these numbers from here on, or its own again
A number is a decimal, nan, inf, -inf, or 0x and the bits. What is not given is as in SetUp::falcon_quad and
TickInput::default of the crate fosavalo.",
        leg = LEG_BYTES / 4,
        desk = DESK_SETUP_BYTES / 4,
        row = TICK_BYTES / 4,
    )
}

fn run(arguments: &Arguments) -> Result<u8, String> {
    let scenario = arguments.at_most_one("scenario")?;
    if arguments.has(CHOICES) {
        return show(&choices().map_err(|refusal| refusal.to_string())?);
    }
    let folder = arguments.path(OUT).unwrap_or(PathBuf::from(output::FOLDER));
    match scenario {
        Some(path) => from_file(path, &folder),
        None => shown(&folder),
    }
}

/// What came of files in a folder, a line each.
fn lines(folder: &Path, said: io::Result<Vec<String>>) -> Result<u8, String> {
    match said {
        Ok(said) => show(&format!("\n{}\n", said.join("\n"))),
        Err(error) => Err(of_file(folder, error)),
    }
}

/// The slow pass, and the others.
fn shown(folder: &Path) -> Result<u8, String> {
    let (title, pairs) = (pass::title(), passes(&pass::SHOWN).map_err(|refusal| refusal.to_string())?);
    show(&table(&title, &pairs))?;
    let lines = |said| lines(folder, said);
    if let Some(pair) = pairs.iter().find(|pair| pair.name == format!("seed {}", pass::DRAWN)) {
        lines(output::write(folder, "pass", &format!("{title}, {}", pair.name), pair))?;
    }
    let told = |table: Result<String, String>| show(&format!("\n{}", table?));
    let flight = legs::fly(pass::DRAWN).map_err(|refusal| refusal.to_string())?;
    told(Ok(legs::table(&flight)))?;
    lines(output::kept(folder, "legs", &flight).map(|said| vec![said]))?;
    let flown = exchange::fly(pass::DRAWN).map_err(|refusal| refusal.to_string())?;
    told(Ok(exchange::table(&flown)))?;
    lines(output::kept(folder, "exchange", &flown.flight).map(|said| vec![said]))?;
    told(loop_thrice::table())?;
    lines(loop_thrice::write(folder))?;
    told(curve::table().map_err(|refusal| refusal.to_string()))?;
    lines(curve::write(folder))?;
    told(rotor::table().map_err(|refusal| refusal.to_string()))?;
    lines(rotor::write(folder))?;
    told(desk::table().map_err(|refusal| refusal.to_string()))?;
    lines(desk::write(folder))
}

fn from_file(path: &Path, folder: &Path) -> Result<u8, String> {
    let bytes = output::read_all(path).map_err(|error| of_file(path, error))?;
    let scenario = Scenario::read(&bytes).map_err(|mistake| of_file(path, mistake))?;
    let mended: String = scenario.set_up.mended().map(|mended| format!("set-up mended {mended}\n")).collect();
    let doubt = scenario.set_up.filter.doubt().map(|doubt| format!("set-up took the filter, but {doubt}\n"));
    show(&(mended + &doubt.unwrap_or_default()))?;
    let name = output::name(path);
    let fly = |rule| scenario.fly(rule).map_err(|refusal| refusal.to_string());
    let [ours, earlier] = RULES;
    let flown: [Flown; 2] = [fly(ours)?, fly(earlier)?];
    let panels = [("Our shield", &flown[0]), ("The earlier rule", &flown[1])].map(|(caption, flown)| flown.panel(caption));
    let pair = Pair { name: name.clone(), flights: flown.map(|flown| flown.flight) };
    let [ours, earlier] = &pair.flights;
    let title = output::title(&name, &ours.ticks, Some((ours.enter, ours.exit)));
    let Some(simulated) = scenario.aircraft else {
        let told =
            "\nOpen loop: gyro and attitude are as the file has them, and no torque moves them. `aircraft simulated` flies an aircraft.\n";
        show(&(table(&title, std::slice::from_ref(&pair)) + told))?;
        return lines(folder, output::write(folder, &name, &title, &pair));
    };
    let title = format!("{title}, aircraft simulated, seed {}", simulated.seed);
    show(&format!("{}\n{}", table(&title, std::slice::from_ref(&pair)), simulated::table([ours, earlier])))?;
    let written = output::write(folder, &name, &title, &pair).and_then(|mut said| {
        said.push(above::draw(&folder.join(format!("{name}-above")), &format!("{title}, from above"), &panels)?);
        Ok(said)
    });
    lines(folder, written)
}
