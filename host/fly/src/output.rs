//! Flights as files: every tick as CSV, a log, the picture.

use crate::flight::{Flight, Rule};
use crate::flight_file::FlightFile;
use crate::picture::{Picture, Row};
use crate::table::Pair;
use crate::ticks::Ticks;
use fosavalo::{Log, LogSeries, Record, Refusal, LOG_TRAILER_BYTES, MOST_RECORDS, RECORD_BYTES};
use std::fmt::Display;
use std::io::{self, BufWriter, Read, Write};
use std::path::Path;

/// Where files go if nobody says where.
pub const FOLDER: &str = "flights";

/// Where in a record the flag is, the one word that is a whole number.
pub const FLAG: usize = 17 + 6;

/// What its files and its row of the picture are called.
fn row(flight: &Flight) -> Row<'_> {
    let (suffix, caption) = match flight.rule {
        Rule::Shield => ("-shield", "Our shield: back to the planner above exit"),
        Rule::Earlier => ("-earlier", "The earlier rule: back to the planner above enter"),
    };
    Row { suffix, caption, ticks: &flight.ticks, would: false, end: "" }
}

/// What the files made of this one are called: its name without what a shell or gnuplot might take for something else.
pub fn name(path: &Path) -> String {
    if path == Path::new("-") {
        return "stdin".to_string();
    }
    let stem = path.file_stem().map_or("flight".into(), |stem| stem.to_string_lossy());
    stem.chars().map(|c| if c.is_ascii_alphanumeric() || c == '-' { c } else { '_' }).collect()
}

/// A number in few letters.
pub fn brief(x: f32) -> String {
    if x == 0.0 || (1e-4..1e6).contains(&x.abs()) || !x.is_finite() {
        x.to_string()
    } else {
        format!("{x:e}")
    }
}

/// Seconds to the millisecond, in few letters.
pub fn seconds(x: f64) -> String {
    if x < 1e6 {
        format!("{x:.3}")
    } else {
        format!("{x:.3e}")
    }
}

/// What a picture says of a flight above it.
pub fn title(name: &str, ticks: &Ticks, thresholds: Option<(f32, f32)>) -> String {
    let count = ticks.len();
    let band = thresholds.map_or(String::new(), |(enter, exit)| format!(", enter {}, exit {}", brief(enter), brief(exit)));
    format!("{name}: {} s in {count} tick{}{band}", seconds(ticks.seconds()), if count == 1 { "" } else { "s" })
}

/// A log's file, but no more of it than tells that it is too long for a log.
pub fn read(file: &Path) -> io::Result<Vec<u8>> {
    read_some(file, (MOST_RECORDS * RECORD_BYTES + LOG_TRAILER_BYTES) as u64 + 1)
}

/// All of a file.
pub fn read_all(file: &Path) -> io::Result<Vec<u8>> {
    read_some(file, u64::MAX)
}

/// `-` is standard input.
fn read_some(file: &Path, most: u64) -> io::Result<Vec<u8>> {
    if file == Path::new("-") {
        let mut bytes = Vec::new();
        io::stdin().lock().take(most).read_to_end(&mut bytes)?;
        return Ok(bytes);
    }
    let file = std::fs::File::open(file)?;
    // as much room as a full log wants at once: a buffer that grows is copied
    let len = file.metadata().map_or(0, |about| about.len()).min(most).min(8 << 20);
    let mut bytes = Vec::with_capacity(len as usize + 1);
    file.take(most).read_to_end(&mut bytes)?;
    Ok(bytes)
}

/// What is wrong, behind the file's name.
pub fn of_file(file: &Path, what: impl Display) -> String {
    match file == Path::new("-") {
        true => format!("standard input: {what}"),
        false => format!("{}: {what}", file.display()),
    }
}

/// A file's name as a shell takes it for one word.
fn in_a_shell(name: &str) -> String {
    let plain = |c: char| c.is_alphanumeric() || "/._-+,:@%".contains(c);
    match !name.is_empty() && !name.starts_with('-') && name.chars().all(plain) {
        true => name.to_string(),
        false => format!("'{}'", name.replace('\'', "'\\''")),
    }
}

/// To standard output. A reader that wants no more of it, as `head`, is no mistake.
pub fn print(what: impl FnOnce(&mut io::StdoutLock) -> io::Result<()>) -> Result<(), String> {
    match what(&mut io::stdout().lock()) {
        Err(error) if error.kind() != io::ErrorKind::BrokenPipe => Err(format!("standard output: {error}")),
        _ => Ok(()),
    }
}

/// To standard error, if somebody reads it.
pub fn note(text: &str) {
    let _ = writeln!(io::stderr(), "{text}");
}

/// One line a tick: which, when, and its record, document 01's words of the input and of the answer, each number so that reading it gives the
/// same bits: a NaN other than 7fc00000 is written by its bits, as in a scenario.
pub fn csv(ticks: impl Iterator<Item = (f64, Record)>, to: impl Write) -> io::Result<()> {
    let mut to = BufWriter::new(to);
    writeln!(
        to,
        "tick,seconds,gyro_x,gyro_y,gyro_z,q_w,q_x,q_y,q_z,tracking_error,yaw,yaw_rate,dt,planner_x,planner_y,planner_z,\
         delivered_x,delivered_y,delivered_z,torque_x,torque_y,torque_z,command_x,command_y,command_z,flag,time,psi,margin"
    )?;
    for (at, (seconds, record)) in ticks.enumerate() {
        write!(to, "{},{seconds:.6}", at + 1)?;
        for (place, word) in record.words().into_iter().enumerate() {
            let x = f32::from_bits(word);
            match (place, word) {
                (FLAG, _) => write!(to, ",{word}")?,
                (_, 0x7fc0_0000) => write!(to, ",NaN")?,
                _ if x.is_nan() => write!(to, ",0x{word:08x}")?,
                _ => write!(to, ",{x:?}")?,
            }
        }
        writeln!(to)?;
    }
    to.flush()
}

/// The ticks of a flight for `csv`.
pub fn rows(flight: &Flight) -> impl Iterator<Item = (f64, Record)> + '_ {
    flight.ticks.iter().map(|tick| (tick.seconds, Record::new(&tick.input, &tick.answer)))
}

/// The log of a flight that is no longer than one.
pub fn log(flight: &Flight) -> Result<Log, Refusal> {
    let mut log = Log::with_capacity(flight.ticks.len());
    flight.ticks.iter().try_for_each(|tick| log.append(&tick.input, &tick.answer))?;
    Ok(log)
}

/// The name of a log of this flight, of so many; a flight of several has them numbered.
pub fn log_name(name: &str, at: usize, of: usize) -> String {
    match of {
        1 => format!("{name}.log"),
        _ => format!("{name}-{:03}.log", at + 1),
    }
}

/// Several logs, each in a folder, as they are told of.
pub fn told(folder: &Path, logs: &[String]) -> String {
    match logs {
        [first, .., last] => format!("{} to {last}", folder.join(first).display()),
        _ => logs.iter().map(|log| folder.join(log).display().to_string()).collect(),
    }
}

/// Writes a flight into a folder: every tick as NAME.csv, NAME.log or, where one is too short for it, NAME-001.log and so on, and NAME.flight. It takes the place of
/// one of this name that was there before, with all of its logs. The logs, as they are told of.
pub fn keep(folder: &Path, name: &str, flight: &Flight) -> io::Result<String> {
    std::fs::create_dir_all(folder)?;
    csv(rows(flight), std::fs::File::create(folder.join(format!("{name}.csv")))?)?;
    let mut series = LogSeries::new();
    flight.ticks.iter().try_for_each(|tick| series.append(&tick.input, &tick.answer)).map_err(io::Error::other)?;
    let logs = keep_logs(folder, name, &series)?;
    let counts = series.logs().iter().map(Log::len);
    let file = FlightFile::of(flight, logs.iter().cloned().zip(counts).collect());
    std::fs::write(folder.join(format!("{name}.flight")), file.text())?;
    Ok(told(folder, &logs))
}

/// The logs of a series, and none is left of a longer one, or of a shorter, that had this name.
pub fn keep_logs(folder: &Path, name: &str, series: &LogSeries) -> io::Result<Vec<String>> {
    let count = series.logs().len();
    let logs: Vec<String> = (0..count).map(|at| log_name(name, at, count)).collect();
    for (log, name) in series.logs().iter().zip(&logs) {
        std::fs::write(folder.join(name), log.as_bytes())?;
    }
    if count > 1 {
        gone(&folder.join(log_name(name, 0, 1)))?;
    }
    let first = if count == 1 { 0 } else { count };
    for at in first.. {
        if !gone(&folder.join(log_name(name, at, 2)))? {
            break;
        }
    }
    Ok(logs)
}

/// Removes a file; whether there was one.
fn gone(file: &Path) -> io::Result<bool> {
    match std::fs::remove_file(file) {
        Err(error) if error.kind() == io::ErrorKind::NotFound => Ok(false),
        other => other.map(|()| true),
    }
}

/// The same as a line of what was written.
pub fn kept(folder: &Path, name: &str, flight: &Flight) -> io::Result<String> {
    let log = keep(folder, name, flight)?;
    Ok(format!("every tick and the log: {0}.csv, {log}, {0}.flight", folder.join(name).display()))
}

/// Writes both flights into a folder, NAME-shield and NAME-earlier, and draws NAME.svg and NAME.png; what came of it, a line each.
pub fn write(folder: &Path, name: &str, title: &str, pair: &Pair) -> io::Result<Vec<String>> {
    let (stem, [ours, _]) = (folder.join(name), &pair.flights);
    let drawn = pair.flights.each_ref().map(row);
    let mut logs = Vec::new();
    for (flight, row) in pair.flights.iter().zip(&drawn) {
        logs.push(keep(folder, &format!("{name}{}", row.suffix), flight)?);
    }
    let picture = Picture { title, thresholds: Some((ours.enter, ours.exit)), rows: &drawn };
    Ok(vec![
        format!("every tick: {0}-shield.csv, {0}-earlier.csv", stem.display()),
        format!("the logs: {} (`fosavalo log {}` shows one)", logs.join(", "), in_a_shell(&format!("{}-shield.flight", stem.display()))),
        format!("what they do not tell: {0}-shield.flight, {0}-earlier.flight", stem.display()),
        picture.draw(&stem)?,
    ])
}
