//! The picture: who flew and the margin, over the whole flight and tick by tick, one row for each flight.

use crate::output::seconds;
use crate::ticks::{Tick, Ticks};
use fosavalo::Pilot;
use std::fmt::Write as _;
use std::io::{self, Write};
use std::path::Path;
use std::process::{Command, Stdio};

/// How long the close-up is, s.
const CLOSE: f64 = 0.1;
/// Points along the picture's width, and bits of the strip that says who flew.
const POINTS: usize = 1200;
const BITS: usize = 600;

pub struct Row<'a> {
    /// What its file of points has behind the picture's own name.
    pub suffix: &'static str,
    pub caption: &'static str,
    pub ticks: &'a Ticks,
    /// Whether its flags are none that were flown, but what another margin would have made of the flight.
    pub would: bool,
    /// What came of it at its end, where there is something to say.
    pub end: &'static str,
}

pub struct Picture<'a> {
    pub title: &'a str,
    /// Enter and exit, where they are known.
    pub thresholds: Option<(f32, f32)>,
    /// One or two. The close-up of both is of one time, the last one's.
    pub rows: &'a [Row<'a>],
}

impl Picture<'_> {
    /// Draws STEM.svg and STEM.png from STEM and the rows' suffixes with .points; what came of it.
    pub fn draw(&self, stem: &Path) -> io::Result<String> {
        let Some(last) = self.rows.last().filter(|_| self.rows.iter().all(|row| !row.ticks.is_empty())) else {
            return Ok("no picture: no tick".to_string());
        };
        let close = close_up(last.ticks);
        for row in self.rows {
            std::fs::write(row.file(stem), points(row.ticks, close))?;
        }
        let settings = self.settings(stem, close);
        Ok(drawn(stem, &settings, include_str!("../picture.gp")))
    }

    /// What `picture.gp` is told.
    fn settings(&self, stem: &Path, close: f64) -> String {
        let ticks = || self.rows.iter().flat_map(|row| row.ticks.iter());
        let margins = || ticks().map(|tick| f64::from(tick.answer.margin)).filter(|m| m.is_finite());
        let (enter, exit, finite_exit, least, most) = match self.thresholds.map(|(enter, exit)| (f64::from(enter), f64::from(exit))) {
            Some((enter, exit)) => {
                let band = if exit.is_finite() { exit - enter } else { enter };
                // both thresholds, and as much of the margins as lies near them
                let least = margins().fold(enter, f64::min).max(enter - 4.0 * band);
                let most = margins().fold(enter + band, f64::max).min(enter + 10.0 * band);
                (enter, if exit.is_finite() { exit } else { enter + band }, exit.is_finite(), least, most)
            }
            None => match (margins().min_by(f64::total_cmp), margins().max_by(f64::total_cmp)) {
                (Some(least), Some(most)) if least < most => (least, least, false, least, most),
                (only, _) => {
                    let only = only.unwrap_or(0.0);
                    let around = 0.5 * only.abs().max(1e-3);
                    (only, only, false, only - around, only + around)
                }
            },
        };
        let list = |items: Vec<String>| items.join(", ");
        let count = self.rows.len();
        let files = self.rows.iter().map(|row| quoted(&row.file(stem).to_string_lossy())).collect();
        let captions = self.rows.iter().map(|row| quoted(row.caption)).collect();
        let hands = self.rows.iter().map(|row| quoted(&hands(row.ticks.changes().len(), row.would))).collect();
        let ends = self.rows.iter().map(|row| quoted(row.end)).collect();
        let ended = self.rows.iter().map(|row| format!("{:e}", row.ticks.until())).collect();
        let parts: Vec<Part> = self.rows.iter().map(|row| Part::of(row.ticks)).collect();
        let from = parts.iter().map(|part| part.from).fold(f64::INFINITY, f64::min);
        // an axis has some length
        let until = parts.iter().map(|part| part.until).fold(from + 1e-6, f64::max);
        let axis = match parts.iter().map(|part| part.others).max() {
            None | Some(0) => "seconds".to_string(),
            Some(1) => "seconds; 1 tick beyond a pause is not shown".to_string(),
            Some(n) => format!("seconds; {n} ticks beyond pauses are not shown"),
        };
        let bit = self.rows.iter().map(|row| per_bit(row.ticks)).max().unwrap_or(1);
        format!(
            "stem = {}\ntitle = {}\nrows = {count}\narray files[{count}] = [{}]\narray captions[{count}] = [{}]\n\
             array hands[{count}] = [{}]\narray ends[{count}] = [{}]\narray ended[{count}] = [{}]\nthresholds = {}\nenter = {enter:e}\nexit = {exit:e}\nfinite_exit = {}\nleast = {least:e}\n\
             most = {most:e}\nfrom = {from:e}\nuntil = {until:e}\naxis = {}\nclose_from = {}\nclose_ms = {}\nbit = {bit}\n",
            quoted(&stem.to_string_lossy()),
            quoted(self.title),
            list(files),
            list(captions),
            list(hands),
            list(ends),
            list(ended),
            u8::from(self.thresholds.is_some()),
            u8::from(finite_exit),
            quoted(&axis),
            quoted(&format!("from {} s, tick by tick", seconds(close))),
            1000.0 * CLOSE,
        )
    }
}

impl Row<'_> {
    fn file(&self, stem: &Path) -> std::path::PathBuf {
        let mut name = stem.as_os_str().to_owned();
        name.push(format!("{}.points", self.suffix));
        name.into()
    }
}

/// What of a flight its row has: from when to when, and how many ticks are elsewhere.
struct Part {
    from: f64,
    until: f64,
    others: usize,
}

impl Part {
    /// All of it; but where pauses would leave less than a few points to be seen, of the parts between them the one with the most ticks.
    fn of(ticks: &Ticks) -> Part {
        let held = |part: &[Tick]| part.first().zip(part.last()).map_or((0.0, 0.0), |(first, last)| (first.seconds, last.until));
        let painted: f64 = ticks.stretches().map(held).map(|(from, until)| until - from).sum();
        let seen = painted * POINTS as f64 >= 4.0 * ticks.until();
        let parts = ticks.chunk_by(|a, b| seen || b.seconds - a.until <= painted);
        let most = parts.rev().max_by_key(|part| part.len()).unwrap_or_default();
        let (from, until) = held(most);
        Part { from, until, others: ticks.len() - most.len() }
    }
}

/// When the close-up begins: where control changes hands most often, or, if it never does so twice within it, shortly before the last change.
fn close_up(ticks: &Ticks) -> f64 {
    let last = ticks.changes().last().and_then(|at| ticks.get(*at)).map_or(0.0, |tick| tick.seconds);
    match ticks.busiest(CLOSE) {
        (_, 0 | 1) => (last - 0.5 * CLOSE).max(0.0),
        (from, _) => from,
    }
}

fn hands(changes: usize, would: bool) -> String {
    let times = match changes {
        0 if would => return "control would never have changed hands".to_string(),
        0 => return "control never changed hands".to_string(),
        1 => "once".to_string(),
        n => format!("{n} times"),
    };
    format!("control {} hands {times}", if would { "would have changed" } else { "changed" })
}

/// Four blocks for gnuplot: the margin over time, who flew when, the ticks of the close-up, who flew there.
fn points(ticks: &Ticks, close: f64) -> String {
    let mut text = String::new();
    let per_point = ticks.len().div_ceil(POINTS).max(1);
    for stretch in ticks.stretches() {
        for some in stretch.chunks(per_point) {
            // the least and the greatest of these ticks, in their order, so that no visit to either side is lost
            let finite = || some.iter().filter(|tick| tick.answer.margin.is_finite());
            let by = |a: &&Tick, b: &&Tick| a.answer.margin.total_cmp(&b.answer.margin);
            if let (Some(least), Some(most)) = (finite().min_by(by), finite().max_by(by)) {
                let (first, last) = if least.seconds <= most.seconds { (least, most) } else { (most, least) };
                for tick in [first, last] {
                    let _ = writeln!(text, "{:e} {:e}", tick.seconds, tick.answer.margin);
                }
            }
            // where one is no number, and so a visit that cannot be drawn, the line has a gap
            if finite().count() < some.len() {
                text.push_str("NaN NaN\n");
            }
        }
        if let Some(last) = stretch.last().filter(|tick| tick.answer.margin.is_finite()) {
            let _ = writeln!(text, "{:e} {:e}", last.until, last.answer.margin);
        }
        text.push_str("NaN NaN\n");
    }
    text.push_str("\n\n");
    for (from, to, flew) in strip(ticks, per_bit(ticks)) {
        let _ = writeln!(text, "{from:e} {to:e} {}", flew as u8);
    }
    text.push_str("\n\n");
    let end = close + CLOSE;
    let milliseconds = |at: f64| 1000.0 * (at.clamp(close, end) - close);
    for tick in ticks.iter().filter(|tick| (close..end).contains(&tick.seconds)) {
        let margin = if tick.answer.margin.is_finite() { tick.answer.margin } else { f32::NAN };
        let _ = writeln!(text, "{:.3} {margin:e} {}", milliseconds(tick.seconds), Flew::of(tick) as u8);
    }
    text.push_str("\n\n");
    for (from, to, flew) in strip(ticks, 1).into_iter().filter(|(from, to, _)| *from < end && *to > close) {
        let _ = writeln!(text, "{:.3} {:.3} {}", milliseconds(from), milliseconds(to), flew as u8);
    }
    text
}

/// What is painted of the strip, by bits of so many ticks: from, to, and who flew. A bit in which control changed hands there and back is nobody's,
/// and a pause is in none.
fn strip(ticks: &Ticks, per_bit: usize) -> Vec<(f64, f64, Flew)> {
    let (mut painted, mut before) = (Vec::<(f64, f64, Flew)>::new(), None);
    for bit in ticks.stretches().flat_map(|stretch| stretch.chunks(per_bit)) {
        let (Some(first), Some(last)) = (bit.first(), bit.last()) else { continue };
        let changes = bit.iter().filter(|tick| before.replace(tick.answer.pilot).is_some_and(|before| before != tick.answer.pilot)).count();
        let fallback = bit.iter().filter(|tick| tick.answer.pilot == Pilot::Fallback).count();
        let flew = match changes {
            0 | 1 if 2 * fallback > bit.len() => Flew::Fallback,
            0 | 1 => Flew::Planner,
            _ => Flew::Both,
        };
        match painted.last_mut() {
            Some(piece) if piece.2 == flew && piece.1 == first.seconds => piece.1 = last.until,
            _ => painted.push((first.seconds, last.until, flew)),
        }
    }
    painted
}

#[derive(Clone, Copy, PartialEq, Eq)]
enum Flew {
    Planner,
    Fallback,
    Both,
}

impl Flew {
    fn of(tick: &Tick) -> Self {
        match tick.answer.pilot {
            Pilot::Planner => Flew::Planner,
            Pilot::Fallback => Flew::Fallback,
        }
    }
}

/// The ticks of a bit of the strip.
fn per_bit(ticks: &Ticks) -> usize {
    ticks.len().div_ceil(BITS).max(1)
}

/// A text as gnuplot reads it.
pub fn quoted(text: &str) -> String {
    format!("'{}'", text.replace('\'', "''"))
}

/// Draws STEM.svg and STEM.png by a script that is told these settings; what came of it.
pub fn drawn(stem: &Path, settings: &str, script: &str) -> String {
    match draw(settings, script, "svg").and_then(|()| draw(settings, script, "png")) {
        Ok(()) => format!("the picture: {0}.svg, {0}.png", stem.display()),
        Err(what) => format!("no picture: {what}"),
    }
}

/// Has gnuplot draw it.
fn draw(settings: &str, script: &str, terminal: &str) -> Result<(), String> {
    let gnuplot = Command::new("gnuplot").arg("-").stdin(Stdio::piped()).stdout(Stdio::null()).stderr(Stdio::piped()).spawn();
    let missing = || "gnuplot is missing (Debian: apt-get install gnuplot-nox)".to_string();
    let mut gnuplot = gnuplot.map_err(|error| match error.kind() {
        io::ErrorKind::NotFound => missing(),
        _ => format!("gnuplot: {error}"),
    })?;
    let script = format!("terminal = '{terminal}'\n{settings}{script}");
    if let Some(mut stdin) = gnuplot.stdin.take() {
        // where gnuplot stops early its own words say why
        let _ = stdin.write_all(script.as_bytes());
    }
    let done = gnuplot.wait_with_output().map_err(|error| format!("gnuplot: {error}"))?;
    match done.status.code() {
        Some(0) => Ok(()),
        // under an emulator a program that is missing begins, and ends so
        Some(127) => Err(missing()),
        _ => Err(format!("gnuplot could not make the {terminal}: {}", String::from_utf8_lossy(&done.stderr).trim())),
    }
}

#[cfg(test)]
mod tests {
    use super::*;
    use crate::flight::{Flight, Rule};
    use crate::scenario::Scenario;

    fn flown(scenario: &str) -> Ticks {
        let scenario = Scenario::read(scenario.as_bytes()).expect("it is a scenario");
        Flight::of(&scenario.set_up, Rule::Shield, None, &scenario.inputs).expect("no set-up is refused").ticks
    }

    /// The blocks that gnuplot gets, number by number: the margin, the strip, the close-up's ticks and its strip.
    fn blocks(ticks: &Ticks) -> [Vec<Vec<f64>>; 4] {
        let text = points(ticks, close_up(ticks));
        let numbers = |line: &str| line.split(' ').map(|word| word.parse().expect("a number")).collect();
        let blocks: Vec<_> = text.split("\n\n\n").map(|block| block.lines().map(numbers).collect()).collect();
        blocks.try_into().expect("four blocks")
    }

    fn near(rows: &[Vec<f64>], expected: &[[f64; 3]]) {
        let row = |(row, expected): (&Vec<f64>, &[f64; 3])| row.iter().zip(expected).all(|(a, b)| (a - b).abs() < 1e-5);
        assert!(rows.len() == expected.len() && rows.iter().zip(expected).all(row), "{rows:?}\nis not {expected:?}");
    }

    const PLANNER: f64 = 0.0;
    const FALLBACK: f64 = 1.0;
    const BOTH: f64 = 2.0;

    /// A tick is painted until the next one, a tenth of a second at most, and the last as long as its own step: pauses and ends stay blank.
    #[test]
    fn what_was_recorded_is_painted_and_nothing_else() {
        let ticks = flown(
            "enter 0.2\nexit 0.4\ntick 100\nattitude 0 1 0 0\ntick 100\ndt 0.6\ntick 1\ndt 0.02\ntick 10\nattitude 1 0 0 0\ntick 5\n",
        );
        let [margin, strip, close, close_strip] = blocks(&ticks);
        near(&strip, &[[0.0, 0.1, PLANNER], [0.1, 0.299, FALLBACK], [0.799, 1.019, FALLBACK], [1.019, 1.119, PLANNER]]);
        // the close-up is about the last change
        near(&close_strip, &[[0.0, 50.0, FALLBACK], [50.0, 100.0, PLANNER]]);
        let at: Vec<[f64; 2]> = close.iter().map(|tick| [tick[0], tick[2]]).collect();
        assert_eq!(at, [[10.0, FALLBACK], [30.0, FALLBACK], [50.0, PLANNER], [70.0, PLANNER], [90.0, PLANNER]]);
        // the line too has a gap at the pause
        let gaps: Vec<usize> = (0..margin.len()).filter(|at| margin[*at][0].is_nan()).collect();
        let [first, last] = gaps[..] else { panic!("{gaps:?}") };
        assert!((margin[first - 1][0] - 0.299).abs() < 1e-5 && (margin[first + 1][0] - 0.799).abs() < 1e-5 && last == margin.len() - 1);
    }

    #[test]
    fn a_flight_without_a_margin() {
        let [margin, strip, close, close_strip] = blocks(&flown("yaw nan\ntick 50\n"));
        near(&strip, &[[0.0, 0.05, FALLBACK]]);
        near(&close_strip, &[[0.0, 50.0, FALLBACK]]);
        assert_eq!(close.len(), 50);
        assert!(margin.iter().all(|point| point[1].is_nan()) && close.iter().all(|tick| tick[1].is_nan() && tick[2] == FALLBACK));
    }

    /// The longest step that is no pause, and the shortest that is one.
    #[test]
    fn steps_of_a_tenth() {
        let [margin, strip, _, _] = blocks(&flown("dt 0.1\ntick 5\n"));
        near(&strip, &[[0.0, 0.5, PLANNER]]);
        assert_eq!(margin.iter().filter(|point| point[0].is_nan()).count(), 1);
        let [_, strip, _, _] = blocks(&flown(&format!("dt {}\ntick 2\n", 0.1f32.next_up())));
        assert_eq!(strip.len(), 2);
    }

    #[test]
    fn one_tick() {
        let [_, strip, close, close_strip] = blocks(&flown("tick 1\n"));
        near(&strip, &[[0.0, 0.001, PLANNER]]);
        near(&close_strip, &[[0.0, 1.0, PLANNER]]);
        assert_eq!(close.len(), 1);
    }

    /// Long flights are painted by bits of several ticks: all of the flight, and no more.
    #[test]
    fn by_bits() {
        let ticks =
            flown(&("enter 0.2\nexit 0.4\ntick 3200\n".to_string() + &"attitude 0 1 0 0\ntick 2\nattitude 1 0 0 0\ntick 2\n".repeat(400)));
        let [_, strip, _, _] = blocks(&ticks);
        near(&strip, &[[0.0, 3.2, PLANNER], [3.2, 4.8, BOTH]]);
    }

    /// Pauses are shown for what they are, unless nothing else could be seen: then the row has the part between two of them with the most ticks.
    #[test]
    fn what_pauses_would_hide() {
        let part = |scenario: &str| {
            let Part { from, until, others } = Part::of(&flown(scenario));
            (format!("{from:.3}"), format!("{until:.3}"), others)
        };
        let part_of = |from: &str, until: &str, others: usize| (from.to_string(), until.to_string(), others);
        assert_eq!(part("tick 9\ndt 1.5\ntick 1\n"), part_of("0.000", "1.608", 0));
        // a fifth of a second in a minute is seen, and in an hour and a half is not
        assert_eq!(part("tick 100\ndt 59.9\ntick 1\n"), part_of("0.000", "60.099", 0));
        assert_eq!(part("tick 100\ndt 5400\ntick 1\n"), part_of("0.000", "0.199", 1));
        assert_eq!(part("tick 100\ndt 5400\ntick 1\ndt 0.001\ntick 150\n"), part_of("5400.099", "5400.250", 100));
        assert_eq!(part("dt 1e38\ntick 3\n"), part_of("0.000", "0.100", 2));
    }

    /// A flight of one tick has no jump, and no minus before it.
    #[test]
    fn no_jolt() {
        assert_eq!(format!("{:.1}", flown("tick 1\n").jolts()), "0.0");
    }

    /// What the first tick decides is no change of hands, and the words fit the number.
    #[test]
    fn changes_of_hands() {
        let said = |scenario: &str| hands(flown(scenario).changes().len(), false);
        assert_eq!(said("tick 9\n"), "control never changed hands");
        assert_eq!(said("yaw nan\ntick 9\n"), "control never changed hands");
        assert_eq!(said("yaw nan\ntick 9\nyaw 0\ntick 9\n"), "control changed hands once");
        assert_eq!(said("tick 9\nyaw nan\ntick 9\nyaw 0\ntick 9\n"), "control changed hands 2 times");
        assert_eq!(
            [0, 1, 7].map(|changes| hands(changes, true)),
            ["would never have changed hands", "would have changed hands once", "would have changed hands 7 times"]
                .map(|s| format!("control {s}"))
        );
    }
}
